% The least repair problem for gringo and clasp: the number of repairs is made least. The order among lists of equal
% length is not encoded, nor the limit L. The task comes from to_asp.py as need/2, add/2, del/2, lock/2 (action, fact),
% start/2, goal/2 (run, fact), step/3 (run, place from 1, action) and steps/2 (run, how many).

% Only actions that are taken and facts that are asked for can be in a least list.
taken(A) :- step(_,_,A).
asked(F) :- taken(A), need(A,F).
asked(F) :- goal(_,F).

% The repairs of document 01, each to be chosen or not; no locked need is dropped (02, request 6).
{ repair(drop_delete,A,F) } :- taken(A), asked(F), del(A,F).
{ repair(add_effect,A,F) } :- taken(A), asked(F), not add(A,F).
{ repair(drop_need,A,F) } :- taken(A), need(A,F), not lock(A,F).

% The table with the repairs made.
needs(A,F) :- taken(A), need(A,F), not repair(drop_need,A,F).
adds(A,F) :- taken(A), asked(F), add(A,F).
adds(A,F) :- repair(add_effect,A,F).
deletes(A,F) :- taken(A), asked(F), del(A,F), not repair(drop_delete,A,F).

% The runs, all over this one table: add wins.
holds(R,F,0) :- asked(F), start(R,F).
holds(R,F,I) :- step(R,I,A), adds(A,F).
holds(R,F,I) :- step(R,I,A), holds(R,F,I-1), not deletes(A,F).

:- step(R,I,A), needs(A,F), not holds(R,F,I-1).
:- goal(R,F), steps(R,N), not holds(R,F,N).

#minimize { 1,K,A,F : repair(K,A,F) }.
#show repair/3.

% A task may have none of these.
#defined start/2. #defined goal/2. #defined need/2. #defined add/2. #defined del/2. #defined lock/2.
#defined step/3.
