% A family. A fact is missing: grandmother(ann, dora) has no answer.
% parent(P, C): P is a parent of C.
parent(ann, bob).
parent(ann, beth).
parent(bob, cleo).
female(ann).
female(beth).
female(cleo).
female(dora).
% mother(M, C): M is the mother of C. grandmother(G, C): G is a grandmother of C.
mother(M, C) :- parent(M, C), female(M).
grandmother(G, C) :- mother(G, P), parent(P, C).
