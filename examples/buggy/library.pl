% The lending rules of a library. A guard has a fault: ann, who is 18 by now, may borrow the atlas, and the rules don't say so.
% person(P, A, T): P is A years old and lives in the town T.
person(ann, 18, here).
person(bob, 17, here).
person(cem, 44, away).
person(dora, 70, here).
person(eli, 9, away).
% works(P, T): P works in the town T.
works(cem, here).
% guardian(P, G): G answers for P.
guardian(bob, dora).
guardian(eli, cem).
% owes(P, C): P owes the library C cents.
owes(ann, 0).
owes(bob, 0).
owes(cem, 120).
owes(dora, 480).
owes(eli, 0).
% lent(P, Items): P has these items at home.
lent(ann, [novel]).
lent(bob, [comic, game]).
lent(cem, []).
lent(dora, [film]).
lent(eli, [comic]).
% item(I, K, A): the item I is of the kind K, and for readers from A years on.
item(atlas, reference, 0).
item(novel, book, 0).
item(comic, book, 6).
item(film, film, 16).
item(game, game, 12).
% lends(C, K, M): readers of the class C may have items of the kind K, and M items at home at most.
lends(adult, reference, 2).
lends(adult, book, 10).
lends(adult, film, 5).
lends(adult, game, 5).
lends(junior, book, 5).
lends(junior, game, 2).
% may_borrow(P, I): P may borrow the item I.
may_borrow(P, I) :- reader(P, C), clear(P, C), item(I, K, A), lends(C, K, M), old_enough(P, A), has_room(P, M).
% reader(P, C): P is a reader of the class C.
reader(P, adult) :- local(P), adult(P).
reader(P, junior) :- local(P), minor(P), guardian(P, G), adult(G).
% local(P): P, or who answers for P, lives or works in the town.
local(P) :- person(P, _, here).
local(P) :- works(P, here).
local(P) :- guardian(P, G), local(G).
% adult(P): P is 18 or older. minor(P): P is younger.
adult(P) :- person(P, A, _), A > 18.
minor(P) :- person(P, A, _), A < 18.
% clear(P, C): P, of the class C, doesn't owe too much.
clear(P, adult) :- owes(P, C), C =< 500.
clear(P, junior) :- owes(P, 0).
% old_enough(P, A): P is A years old or older.
old_enough(P, A) :- person(P, B, _), A =< B.
% has_room(P, M): P has fewer than M items at home.
has_room(P, M) :- lent(P, Items), count(Items, N), N < M.
count([], 0).
count([_|Items], N) :- count(Items, M), N is M + 1.
