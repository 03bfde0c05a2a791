% Powers. One clause has a fault: power(2, 3, P) gives 7.
% power(X, N, P): P is X to the power of N, which isn't negative.
power(_, 0, 1).
power(X, N, P) :- N > 0, M is N - 1, power(X, M, Q), P is X + Q.
