% A test was written. Marks is a list of Name - Points, with 0 to 100 points each.
% report(Marks, R): R is report(Mean, Passed, Grades), with the mean of the points, rounded down, the names of those who have
% passed, and the list of Name - Grade. There is at least one mark.
report(Marks, report(Mean, Passed, Grades)) :- mean(Marks, Mean), passed(Marks, Passed), graded(Marks, Grades).
% mean(Marks, Mean): Mean is the mean of the points. sum(Marks, S): S is their sum. count(Marks, N): there are N of them.
mean(Marks, Mean) :- sum(Marks, S), count(Marks, N), Mean is S // N.
sum([], 0).
sum([_ - P|Marks], S) :- sum(Marks, T), S is T + P.
count([], 0).
count([_|Marks], N) :- count(Marks, M), N is M + 1.
% passed(Marks, Names): Names are those of Marks who have 50 points or more, in order.
passed([], []).
passed([Name - P|Marks], [Name|Names]) :- P >= 50, passed(Marks, Names).
passed([_ - P|Marks], Names) :- P < 50, passed(Marks, Names).
% graded(Marks, Grades): Grades has Name - Grade for each of Marks, in order. grade(P, G): for P points the grade is G.
graded([], []).
graded([Name - P|Marks], [Name - G|Grades]) :- grade(P, G), graded(Marks, Grades).
grade(P, a) :- P >= 90.
grade(P, b) :- P >= 70, P < 90.
grade(P, c) :- P >= 50, P < 70.
grade(P, f) :- P < 50.
