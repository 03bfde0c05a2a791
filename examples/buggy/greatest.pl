% The greatest number of a list. A guard is too strict: greatest([1,2,2], M) has no answer.
% greatest(List, M): M is the greatest number of List.
greatest([X], X).
greatest([X|Xs], X) :- greatest(Xs, M), X > M.
greatest([X|Xs], M) :- greatest(Xs, M), X < M.
