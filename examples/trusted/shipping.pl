% What it costs to ship an order: rules over data and a small library. One rule has a fault: order two is to cost 6 alone.
% cost(O, C): order O costs C to ship.
cost(O, C) :- items(O, Weights), total(Weights, W), class(W, K), price(K, C).
% class(W, K): what weighs W grams is of class K.
class(W, letter) :- W =< 500.
class(W, parcel) :- 500 < W, W =< 2000.
class(W, freight) :- 200 < W.
% The data: items(O, Weights), the weights of the items of order O; price(K, C), class K costs C.
items(one, [120,80]).
items(two, [900,400,300]).
price(letter, 2).
price(parcel, 6).
price(freight, 20).
% The library. total(Numbers, T): their sum is T.
total([], 0).
total([N|Ns], T) :- total(Ns, S), T is N + S.
