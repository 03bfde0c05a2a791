% A family. One clause has a fault: kim is to be a cousin of lea, and isn't found.
% person(N, P, Y): P has the number N and was born in the year Y. child(C, P): C is a child of P.
person(1, ada, 1931).
person(2, bert, 1929).
person(3, cora, 1955).
person(4, dan, 1955).
person(5, eva, 1958).
person(6, finn, 1984).
person(7, gro, 1986).
person(8, kim, 1987).
person(9, lea, 1990).
person(10, max, 1990).
child(cora, ada).
child(cora, bert).
child(dan, ada).
child(dan, bert).
child(eva, ada).
child(eva, bert).
child(finn, eva).
child(gro, eva).
child(kim, cora).
child(lea, dan).
child(max, dan).
% apart(P, Q): P and Q are two persons.
apart(P, Q) :- person(_, P, Y), person(_, Q, Z), Y =\= Z.
% sibling(P, Q): P and Q have a parent in common.
sibling(P, Q) :- child(P, R), child(Q, R), apart(P, Q).
% cousin(P, Q): a parent of P and one of Q are siblings.
cousin(P, Q) :- child(P, R), child(Q, S), sibling(R, S).
% aunt_or_uncle(P, Q): P is a sibling of a parent of Q.
aunt_or_uncle(P, Q) :- child(Q, R), sibling(P, R).
