% Accounts. One clause has a fault: the savings of ann are to be 650, and are 950.
% booking(N, B): booking N is B: paid_in(Account, Sum), paid_out(Account, Sum) or moved(From, To, Sum).
booking(1, paid_in(ann, 1000)).
booking(2, paid_in(bob, 200)).
booking(3, moved(ann, savings, 500)).
booking(4, paid_out(bob, 80)).
booking(5, moved(ann, bob, 120)).
booking(6, paid_in(savings, 300)).
booking(7, moved(savings, ann, 150)).
booking(8, paid_out(ann, 230)).
% other(A, B): A and B are two accounts.
other(ann, bob).
other(ann, savings).
other(bob, ann).
other(bob, savings).
other(savings, ann).
other(savings, bob).
% balance(A, N, S): after booking N account A has the sum S.
balance(_, 0, 0).
balance(A, N, S) :- N > 0, M is N - 1, balance(A, M, R), booking(N, B), change(A, B, C), S is R + C.
% change(A, B, C): booking B changes account A by C.
change(A, paid_in(A, S), S).
change(A, paid_in(B, _), 0) :- other(A, B).
change(A, paid_out(A, S), C) :- C is -S.
change(A, paid_out(B, _), 0) :- other(A, B).
change(A, moved(A, _, S), S).
change(A, moved(_, A, S), S).
change(A, moved(B, C, _), 0) :- other(A, B), other(A, C).
