% How many elements a list has, and the sum of integers.

length([], 0).
length([_|Xs], N) :- length(Xs, M), N is M + 1.

sum([], 0).
sum([X|Xs], S) :- sum(Xs, T), S is T + X.
