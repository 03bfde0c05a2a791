% last(List, X): X is the last element of List.
last([X|_], X).
last([_|Xs], X) :- last(Xs, X).
