% range(L, H, Xs): Xs has the numbers from L to H, one after another.
range(H, H, [H]).
range(L, H, [L|Xs]) :- M is L + 1, range(M, H, Xs).
