% Types of a small language. One clause has a fault: the inner of two functions of one variable gets two types.
% An expression is num(N), true, false, a variable v(I), fun(I, T, E), with the variable I of type T in E, apply(F, E),
% less(A, B) or if(C, A, B). A type is int, bool or to(S, T).
% has_type(E, T): E, which stands alone, has the type T.
has_type(E, T) :- typed([], E, T).
% typed(Env, E, T): E has the type T, where each binding I is S of Env gives the variable I the type S, the first one of I.
typed(_, num(_), int).
typed(_, true, bool).
typed(_, false, bool).
typed(Env, v(I), T) :- bound(I, Env, T).
typed(Env, fun(I, S, E), to(S, T)) :- typed([I is S|Env], E, T).
typed(Env, apply(F, E), T) :- typed(Env, F, to(S, T)), typed(Env, E, S).
typed(Env, less(A, B), bool) :- typed(Env, A, int), typed(Env, B, int).
typed(Env, if(C, A, B), T) :- typed(Env, C, bool), typed(Env, A, T), typed(Env, B, T).
% bound(I, Env, T): Env gives the variable I the type T.
bound(I, [I is T|_], T).
bound(I, [_ is _|Env], T) :- bound(I, Env, T).
