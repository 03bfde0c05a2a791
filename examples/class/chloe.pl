% Chloe's solution.
report(Marks, report(Mean, Passed, Grades)) :- passed(Marks, Passed), graded(Marks, Grades), mean(Marks, Mean).
mean(Marks, Mean) :- sum(Marks, S), count(Marks, N), Mean is S // N.
sum([], 0).
sum([_ - P|Marks], S) :- sum(Marks, T), S is P + T.
count([], 0).
count([_|Marks], N) :- count(Marks, M), N is M + 1.
passed([], []).
passed([Name - P|Marks], [Name|Names]) :- P >= 50, passed(Marks, Names).
passed([_ - P|Marks], Names) :- P < 50, passed(Marks, Names).
graded([], []).
graded([Name - P|Marks], [Name - G|Grades]) :- grade(P, G), graded([Name - P|Marks], Grades).
grade(P, a) :- P >= 90.
grade(P, b) :- P >= 70, P < 90.
grade(P, c) :- P >= 50, P < 70.
grade(P, f) :- P < 50.
