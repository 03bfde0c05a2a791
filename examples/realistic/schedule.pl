% A timetable. One clause has a fault: the plan of all lessons gives a class two lessons at once.
% lesson(L, T, C): teacher T has lesson L with class C. Teachers, classes and slots have numbers.
lesson(algebra, 1, 1).
lesson(biology, 2, 1).
lesson(chess, 3, 2).
lesson(drama, 1, 2).
lesson(english, 2, 2).
lesson(french, 3, 1).
% slot(S): there are lessons in slot S.
slot(1).
slot(2).
slot(3).
% plan(Lessons, Plan): Plan has at(L, S) for each lesson L, in order; no teacher and no class has two lessons in one slot.
plan([], []).
plan([L|Ls], [at(L, S)|Ps]) :- plan(Ls, Ps), slot(S), fits(L, S, Ps).
% fits(L, S, Plan): lesson L can stand in slot S beside all lessons of Plan.
fits(_, _, []).
fits(L, S, [at(M, R)|Ps]) :- apart(L, S, M, R), fits(L, S, Ps).
% apart(L, S, M, R): lesson L in slot S and lesson M in slot R don't meet.
apart(_, S, _, R) :- S =\= R.
apart(L, S, M, S) :- lesson(L, T, _), lesson(M, U, _), T =\= U.
