% reverse(Xs, Ys): Ys has the elements of Xs in the opposite order.
reverse(Xs, Ys) :- reverse(Xs, [], Ys).
% reverse(Xs, Rs, Ys): Ys has the elements of Xs in the opposite order, and then those of Rs.
reverse([], Ys, Ys).
reverse([X|Xs], Rs, Ys) :- reverse(Xs, [X], Ys).
