% Ways through a town. One clause has a fault: the search for a way from 1 to 6 doesn't end.
% street(P, Q): a street leads from place P to place Q. Places have numbers.
street(1, 2).
street(2, 3).
street(3, 4).
street(4, 2).
street(4, 5).
street(5, 1).
street(6, 5).
% way(P, Q, Way): Way has the places of a way from P to Q, none of them twice.
way(P, Q, Way) :- way(P, Q, [P], Way).
% way(P, Q, Seen, Way): the same, by places that aren't in Seen, but for P.
way(P, P, _, [P]).
way(P, Q, Seen, [P|Way]) :- street(P, R), fresh(R, Seen), way(R, Q, [R|Seen], Way).
% fresh(P, Places): P isn't among Places.
fresh(_, []).
fresh(P, [Q|_]) :- P =\= Q.
