% An income tax. One clause has a fault: a household with 52000 and two children is to pay 7600, and pays 18600.
% band(From, To, P): of the income between From and To, P in a hundred is due.
band(0, 10000, 0).
band(10000, 30000, 20).
band(30000, 50000, 30).
band(50000, 1000000, 40).
% household(H, Incomes, Children): the incomes of its members, and how many children it has.
household(berg, [30000, 22000], 2).
household(lind, [18000], 0).
% tax(H, T): household H is to pay T.
tax(H, T) :-
    household(H, Incomes, Children),
    total(Incomes, Income),
    bands(Bands),
    due(Bands, Income, Due),
    relief(Children, Relief),
    less(Due, Relief, T).
% bands([From, ..]): where the bands begin.
bands([0, 10000, 30000, 50000]).
% total(Numbers, T): their sum is T.
total([], 0).
total([N|Ns], T) :- total(Ns, S), T is N + S.
% due(Bands, I, D): of an income of I, D is due in these bands.
due([], _, 0).
due([From|Bands], I, D) :- band(From, To, P), part(From, To, I, Part), E is Part * P // 100, due(Bands, I, F), D is E + F.
% part(From, To, I, P): so much of an income of I lies between From and To.
part(From, _, I, 0) :- I =< From.
part(From, To, I, P) :- From < I, I =< To, P is I - From.
part(_, To, I, To) :- To < I.
% relief(C, R): for C children R is taken off.
relief(0, 0).
relief(C, R) :- C > 0, D is C - 1, relief(D, S), R is S + 1600.
% less(A, B, C): C is A less B, and at least 0.
less(A, B, C) :- A >= B, C is A - B.
less(A, B, 0) :- A < B.
