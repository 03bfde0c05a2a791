% Paths in a graph. The search doesn't end: path(a, X).
% path(X, Y): there is a path from X to Y along edges.
edge(a, b).
edge(b, c).
path(X, Y) :- path(X, Z), edge(Z, Y).
path(X, Y) :- edge(X, Y).
