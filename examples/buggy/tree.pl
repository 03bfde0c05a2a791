% Search trees: leaf, or node(Left, Number, Right) with smaller numbers on the left and greater ones on the right.
% One clause has a fault: tree([2,1,3], T), numbers(T, Ns) gives [2,1,3] in place of [1,2,3].
% tree(List, Tree): Tree has the numbers of List.
tree([], leaf).
tree([X|Xs], T) :- tree(Xs, S), put(X, S, T).
% put(X, S, T): T is the tree S with the number X at its place.
put(X, leaf, node(leaf, X, leaf)).
put(X, node(L, Y, R), node(M, Y, R)) :- X < Y, put(X, L, M).
put(X, node(L, Y, R), node(L, Y, S)) :- X > Y, put(X, R, S).
% numbers(Tree, List): List has the numbers of Tree in rising order.
numbers(leaf, []).
numbers(node(L, X, R), Ns) :- numbers(L, Ls), numbers(R, Rs), append(Ls, Rs, Ms), append(Ms, [X], Ns).
append([], Ys, Ys).
append([X|Xs], Ys, [X|Zs]) :- append(Xs, Ys, Zs).
