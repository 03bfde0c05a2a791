% A family, after Sterling and Shapiro, The Art of Prolog (1986).

parent(ann, bob).
parent(ann, beth).
parent(bob, cleo).
parent(cleo, dan).

female(ann).
female(beth).
female(cleo).

mother(M, C) :- parent(M, C), female(M).

sibling(X, Y) :- parent(P, X), parent(P, Y).

ancestor(X, Y) :- parent(X, Y).
ancestor(X, Z) :- parent(X, Y), ancestor(Y, Z).
