% Paths in a graph, with an operator of its own for edges.

:- op(700, xfx, --->).

a ---> b.
b ---> c.
b ---> d.
d ---> e.

path(X, [X], X).
path(X, [X|Ys], Z) :- X ---> Y, path(Y, Ys, Z).
