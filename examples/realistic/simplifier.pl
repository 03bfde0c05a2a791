% Derivatives, simplified. One clause has a fault: the derivative of (x * x + 5) * x loses a part.
% An expression is n(N), a number; x; A + B or A * B.
% slope(E, D): D is the derivative of E by x, simplified.
slope(E, D) :- derivative(E, F), simple(F, D).
% derivative(E, D): D is the derivative of E by x.
derivative(n(_), n(0)).
derivative(x, n(1)).
derivative(A + B, C + D) :- derivative(A, C), derivative(B, D).
derivative(A * B, C * B + A * D) :- derivative(A, C), derivative(B, D).
% simple(E, S): S is worth as much as E, without a sum or product that has n(0), or n(1) as a factor.
simple(n(N), n(N)).
simple(x, x).
simple(A + B, S) :- simple(A, C), simple(B, D), sum(C, D, S).
simple(A * B, S) :- simple(A, C), simple(B, D), product(C, D, S).
% sum(A, B, S): S is the sum of A and B, which are simple.
sum(n(M), n(N), n(S)) :- S is M + N.
sum(n(0), B, B) :- is_open(B).
sum(n(N), B, n(N) + B) :- N =\= 0, is_open(B).
sum(A, n(0), n(0)) :- is_open(A).
sum(A, n(N), A + n(N)) :- N =\= 0, is_open(A).
sum(A, B, A + B) :- is_open(A), is_open(B).
% product(A, B, P): P is the product of A and B, which are simple.
product(n(M), n(N), n(P)) :- P is M * N.
product(n(0), B, n(0)) :- is_open(B).
product(n(1), B, B) :- is_open(B).
product(n(N), B, n(N) * B) :- N =\= 0, N =\= 1, is_open(B).
product(A, n(0), n(0)) :- is_open(A).
product(A, n(1), A) :- is_open(A).
product(A, n(N), A * n(N)) :- N =\= 0, N =\= 1, is_open(A).
product(A, B, A * B) :- is_open(A), is_open(B).
% is_open(E): E isn't a number.
is_open(x).
is_open(_ + _).
is_open(_ * _).
