% Joining lists. A clause is missing: append([1], [2], Zs) has no answer.
% append(Xs, Ys, Zs): Zs has the elements of Xs, and then those of Ys.
append([X|Xs], Ys, [X|Zs]) :- append(Xs, Ys, Zs).
