% The mean of numbers. The run ends in an error: mean([4,8], M).
% mean(Numbers, M): M is their mean, rounded towards 0.
mean(Numbers, M) :- sum(Numbers, S), count(Numbers, N), M is S // N.
% sum(Numbers, S): S is their sum. count(Numbers, N): there are N of them.
sum([], 0).
sum([X|Xs], S) :- sum(Xs, T), S is T + X.
count([], 0).
count([_|Xs], N) :- count(Xs, M), N is M * 1.
