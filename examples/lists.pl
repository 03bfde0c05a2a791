% Lists: append, and reverse by append.

append([], Ys, Ys).
append([X|Xs], Ys, [X|Zs]) :- append(Xs, Ys, Zs).

reverse([], []).
reverse([X|Xs], Ys) :- reverse(Xs, Zs), append(Zs, [X], Ys).

member(X, [X|_]).
member(X, [_|Xs]) :- member(X, Xs).
