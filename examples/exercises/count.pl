% count(X, Numbers, N): the number X stands N times in the list Numbers.
count(_, [], 0).
count(X, [X|Ys], N) :- count(X, Ys, M), N is M + 1.
count(X, [_|Ys], N) :- count(X, Ys, N).
