% Sums in words. Two rules have a fault: sum(V, [eight,minus,three,minus,one], []) gives 6, and
% sum(V, [three,minus,two], []) has no answer.
% sum(V): words of which the sum is V, from the left. number(N): the word of the number N.
sum(V) --> number(V).
sum(V) --> number(M), [minus], sum(N), {V is M - N}.
number(1) --> [one].
number(2) --> [tow].
number(3) --> [three].
number(8) --> [eight].
