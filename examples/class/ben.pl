% Ben's solution.
report(Marks, report(Mean, Passed, Grades)) :- mean(Marks, Mean), passed(Marks, Passed), graded(Marks, Grades).
mean(Marks, Mean) :- count(Marks, N), sum(Marks, S), Mean is S // N.
sum([], 0).
sum([_ - P|Marks], S) :- sum(Marks, T), S is T + P.
count([], 0).
count([_|Marks], N) :- count(Marks, M), N is M + 1.
passed([], []).
passed([Name - P|Marks], [Name|Names]) :- P >= 50, passed(Marks, Names).
passed([_ - P|Marks], Names) :- P < 50, passed(Marks, Names).
graded([], []).
graded([Name - P|Marks], [Name - G|Grades]) :- grade(P, G), graded(Marks, Grades).
grade(P, a) :- P >= 90.
grade(P, b) :- P >= 70, P < 90.
grade(P, f) :- P < 50.
