% A sudoku of four rows. One clause has a fault: the solution has a number twice in a row.
% puzzle(Rows): a puzzle, _ being an empty cell.
puzzle([[1,_,_,_],[_,_,3,_],[_,4,_,_],[_,_,_,2]]).
% solved(Rows): Rows solve the puzzle.
solved(Rows) :- puzzle(Rows), sudoku(Rows).
% sudoku(Rows): each row, each column and each box of four has the numbers from 1 to 4.
sudoku([Q,R,S,T]) :- band(Q, R), band(S, T), columns(Q, R, S, T).
% band(Q, R): the rows Q and R and the two boxes that they make have these numbers.
band([A,B,C,D], [E,F,G,H]) :- all([A,B,C,D]), all([E,F,G,H]), all([A,B,E,F]), all([C,D,G,H]).
% columns(Q, R, S, T): so have the columns of these rows.
columns([], [], [], []).
columns([A|As], [B|Bs], [C|Cs], [D|Ds]) :- all([A,B,C,D]), columns(As, Bs, Cs, Ds).
% all(Numbers): the numbers from 1 to 4, in any order.
all(Numbers) :- chosen(Numbers, [1,2,3,4]).
% chosen(Xs, Ys): Xs are some elements of Ys, in any order, each taken once.
chosen([], _).
chosen([X|Xs], Ys) :- taken(X, Ys, _), chosen(Xs, Ys).
% taken(X, Ys, Zs): Zs is Ys without one X.
taken(X, [X|Ys], Ys).
taken(X, [Y|Ys], [Y|Zs]) :- taken(X, Ys, Zs).
