% The run of ?- isort([2,1,3], X): the instances of clauses that it enters, in order. The first is of the query.
answers([X]) :- isort([2,1,3], X).
isort([2,1,3], Ys) :- isort([1,3], Zs), insert(2, Zs, Ys).
isort([1,3], Ys) :- isort([3], Zs), insert(1, Zs, Ys).
isort([3], Ys) :- isort([], Zs), insert(3, Zs, Ys).
isort([], []).
insert(3, [], [3]).
insert(1, [3], [3|Zs]) :- insert(1, [], Zs).
insert(1, [], [1]).
insert(2, [3,1], [3|Zs]) :- insert(2, [1], Zs).
insert(2, [1], [1|Zs]) :- insert(2, [], Zs).
insert(2, [], [2]).
