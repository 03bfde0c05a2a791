% sort(Xs, Ys): Ys has the numbers of the list Xs in rising order. It is divided into two lists, which are sorted and merged.
sort([], []).
sort([X], [X]).
sort([X,Y|Xs], Ys) :- divide([X,Y|Xs], As, Bs), sort(As, Cs), sort(Bs, Ds), merge(Cs, Ds, Ys).
% divide(Xs, As, Bs): the elements of Xs go by turns to As and to Bs.
divide([], [], []).
divide([X|Xs], [X|As], Bs) :- divide(Xs, Bs, As).
% merge(Xs, Ys, Zs): Zs has the numbers of Xs and those of Ys; all three lists rise.
merge([], Ys, Ys).
merge([X|Xs], [], [X|Xs]).
merge([X|Xs], [Y|Ys], [X|Zs]) :- X < Y, merge(Xs, [Y|Ys], Zs).
merge([X|Xs], [Y|Ys], [Y|Zs]) :- X > Y, merge([X|Xs], Ys, Zs).
