% coloured(A, B, C, D, E): the colours of five countries on a map; two that have a border in common have different ones.
% Country 1 has borders with 2 and 3, country 4 with 2, 3 and 5, and country 3 with 5.
coloured(A, B, C, D, E) :- differ(A, B), differ(A, C), differ(B, D), differ(C, D), differ(D, E).
% differ(X, Y): the colours X and Y are different.
differ(red, green).
differ(red, blue).
differ(green, red).
differ(green, blue).
differ(blue, red).
differ(blue, green).
