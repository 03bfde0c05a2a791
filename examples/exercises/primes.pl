% primes(N, Ps): Ps are the prime numbers up to N, the greatest first.
primes(1, []).
primes(N, [N|Ps]) :- N > 1, prime(N), M is N - 1, primes(M, Ps).
primes(N, Ps) :- N > 1, composite(N), M is N - 1, primes(M, Ps).
% prime(N): N is a prime number. composite(N): N, from 2 on, isn't one.
prime(N) :- N > 1, undivided(N, 2).
composite(N) :- divided(N, 2).
% undivided(N, D): no number from D up to the root of N divides N.
undivided(N, D) :- D * D >= N.
undivided(N, D) :- D * D < N, N mod D =\= 0, E is D + 1, undivided(N, E).
% divided(N, D): a number from D up to the root of N divides N.
divided(N, D) :- D * D =< N, N mod D =:= 0.
divided(N, D) :- D * D =< N, N mod D =\= 0, E is D + 1, divided(N, E).
