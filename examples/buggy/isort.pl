% Insertion sort. One clause has a fault: isort([2,1,3], X) gives [3,1,2].
% isort(List, Sorted): Sorted has the numbers of List in rising order.
% insert(X, Ys, Zs): Zs is the sorted list Ys with the number X at its place.
isort([X|Xs], Ys) :- isort(Xs, Zs), insert(X, Zs, Ys).
isort([], []).
insert(X, [Y|Ys], [Y|Zs]) :- insert(X, Ys, Zs).
insert(X, [Y|Ys], [X,Y|Ys]) :- X =< Y.
insert(X, [], [X]).
