% Jobs that take turns. One clause has a fault: the jobs never come to an end.
% job(J, N): job J takes N steps.
job(mail, 2).
job(print, 5).
job(save, 3).
% done(Order): the jobs come to an end in this order.
done(Order) :- all_jobs(Jobs), waiting(Jobs, Queue), turns(Queue, Order).
all_jobs([mail, print, save]).
% waiting(Jobs, Queue): the queue in which they wait.
waiting([], []).
waiting([J|Js], [waits(J, N)|Ws]) :- job(J, N), waiting(Js, Ws).
% turns(Queue, Order): the jobs of the queue, waits(J, N) each with the steps that are left, end in this order. Each in turn gets
% two steps.
turns([], []).
turns([waits(J, N)|Ws], [J|Order]) :- N =< 2, turns(Ws, Order).
turns([waits(J, N)|Ws], Order) :- N > 2, put(Ws, waits(J, N), Queue), turns(Queue, Order).
% put(Xs, X, Ys): Ys is Xs with X behind it.
put([], X, [X]).
put([Y|Ys], X, [Y|Zs]) :- put(Ys, X, Zs).
