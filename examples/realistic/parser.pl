% A parser of arithmetic, by grammar rules. One rule has a fault: 20 - 3 * 4 - 2 has the value 10.
% result(Tokens, V): the expression has the value V.
result(Tokens, V) :- expression(T, Tokens, []), value(T, V).
% expression(T): tokens that are read as the tree T, which is n(N), plus(A, B), minus(A, B) or times(A, B).
% Operators group to the left, and times goes before plus and minus.
expression(T) --> product(A), terms(A, T).
% terms(A, T): tokens that make T of A, which was read before them.
terms(A, T) --> [plus], product(B), terms(plus(A, B), T).
terms(A, minus(A, T)) --> [minus], product(B), terms(B, T).
terms(A, A) --> [].
% product(T): numbers and expressions in parentheses, with times between them.
product(T) --> factor(A), factors(A, T).
% factors(A, T): as terms, for a product.
factors(A, T) --> [times], factor(B), factors(times(A, B), T).
factors(A, A) --> [].
% factor(T): a number, or an expression in parentheses.
factor(n(N)) --> [number(N)].
factor(T) --> [open], expression(T), [close].
% value(T, V): the tree T has the value V.
value(n(N), N).
value(plus(A, B), V) :- value(A, M), value(B, N), V is M + N.
value(minus(A, B), V) :- value(A, M), value(B, N), V is M - N.
value(times(A, B), V) :- value(A, M), value(B, N), V is M * N.
