% Regular expressions. One clause has a fault: (ab|c)*d is to accept d, and doesn't.
% An expression is one(C), a character; empty; then(R, S); or(R, S); or any(R), R any number of times, also none.
% accepts(R, Text): the expression R accepts the list of characters Text.
accepts(R, Text) :- front(R, Text, []).
% front(R, Text, Rest): R accepts what stands in Text before Rest.
front(one(C), [C|Rest], Rest).
front(empty, Text, Text).
front(then(R, S), Text, Rest) :- front(R, Text, Middle), front(S, Middle, Rest).
front(or(R, _), Text, Rest) :- front(R, Text, Rest).
front(or(_, S), Text, Rest) :- front(S, Text, Rest).
front(any(R), Text, Rest) :- front(R, Text, Middle), shorter(Middle, Text), repeats(R, Middle, Rest).
% repeats(R, Text, Rest): as any(R).
repeats(_, Text, Text).
repeats(R, Text, Rest) :- front(R, Text, Middle), shorter(Middle, Text), repeats(R, Middle, Rest).
% shorter(Xs, Ys): the list Xs is shorter than Ys.
shorter([], [_|_]).
shorter([_|Xs], [_|Ys]) :- shorter(Xs, Ys).
