% A shop. There are two faults.
% piece(G, P): a piece of the goods G costs P cents. kilo(G, P): a kilo of the goods G costs P cents.
piece(apple, 40).
piece(bread, 300).
kilo(cheese, 1800).
% bill(Basket, S): for the basket S cents are due. It is a list of N * G: N pieces, or N times 100 grams, of the goods G. From
% 2000 cents on a tenth is taken off.
bill(Basket, S) :- total(Basket, T), reduced(T, S).
% total(Basket, T): all goods together cost T.
total([], 0).
total([N * G|Basket], T) :- cost(N, G, C), total(Basket, S), T is C + S.
% cost(N, G, C): N pieces, or N times 100 grams, of G cost C.
cost(N, G, C) :- piece(G, P), C is N * P.
cost(N, G, C) :- kilo(G, P), C is N * P // 100.
% reduced(T, S): of T cents S are due.
reduced(T, T) :- T < 2000.
reduced(T, S) :- T >= 2000, S is T - 10.
