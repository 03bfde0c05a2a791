% Tokens of a text. One clause has a fault: a1 := 42 gets the number 24.
% tokens(Text, Tokens): the list of characters Text is divided into Tokens: name(Characters), number(N) and sign(Characters),
% each as long as it can be, with blanks between them.
tokens([], []).
tokens([' '|Cs], Ts) :- tokens(Cs, Ts).
tokens([C|Cs], [name([C|Ns])|Ts]) :- letter(C), more(Cs, Ns, Rest), tokens(Rest, Ts).
tokens([C|Cs], [number(N)|Ts]) :- digit(C, D), digits(Cs, D, N, Rest), tokens(Rest, Ts).
tokens([C|Cs], [sign([C|Ns])|Ts]) :- mark(C), marks(Cs, Ns, Rest), tokens(Rest, Ts).
% more(Cs, Ns, Rest): Cs begins with the letters and digits Ns, and goes on with Rest, which doesn't begin with one.
more([C|Cs], [C|Ns], Rest) :- letter(C), more(Cs, Ns, Rest).
more([C|Cs], [C|Ns], Rest) :- digit(C, _), more(Cs, Ns, Rest).
more(Cs, [], Cs) :- ends_name(Cs).
% digits(Cs, M, N, Rest): M, with the digits at the front of Cs behind it, is N; Rest follows, and doesn't begin with a digit.
digits([C|Cs], M, N, Rest) :- digit(C, D), K is 10 * D + M, digits(Cs, K, N, Rest).
digits(Cs, N, N, Cs) :- ends_number(Cs).
% marks(Cs, Ns, Rest): as more, for the characters of a sign.
marks([C|Cs], [C|Ns], Rest) :- mark(C), marks(Cs, Ns, Rest).
marks(Cs, [], Cs) :- ends_sign(Cs).
% ends_name(Cs), ends_number(Cs), ends_sign(Cs): Cs is over, or begins with something else.
ends_name([]).
ends_name([' '|_]).
ends_name([C|_]) :- mark(C).
ends_number([]).
ends_number([' '|_]).
ends_number([C|_]) :- letter(C).
ends_number([C|_]) :- mark(C).
ends_sign([]).
ends_sign([' '|_]).
ends_sign([C|_]) :- letter(C).
ends_sign([C|_]) :- digit(C, _).
% The characters.
letter(a).
letter(b).
letter(x).
mark(:).
mark(=).
mark(+).
digit('0', 0).
digit('1', 1).
digit('2', 2).
digit('4', 4).
