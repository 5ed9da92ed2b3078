% The least length of segments that have to be drawn otherwise, so that some solid has the views. What stands for what is as in
% views.lp, but that a segment may show another style than it has.
{ full(C) } :- cell(C).
any(S,D)      :- pair(S,D,A,B), full(A).
any(S,D)      :- pair(S,D,A,B), full(B).
before(S,D+1) :- any(S,D).
before(S,D+1) :- before(S,D), pair(S,D,_,_).
odd(S,D)      :- pair(S,D,A,B), full(A), not full(B).
odd(S,D)      :- pair(S,D,A,B), full(B), not full(A).
differ(S)     :- odd(S,D).
seen(S)       :- odd(S,D), not before(S,D).
is(S,blank)  :- style(S,_), not differ(S).
is(S,solid)  :- style(S,_), seen(S).
is(S,dashed) :- style(S,_), differ(S), not seen(S).
wrong(S,U)   :- style(S,T), is(S,U), T != U.
% What follows for any solid, told so that clingo need not find it out: round a grid point no single pair of columns differs, nor
% is one edge alone seen; and two views that show a plane or a slice both show edges in it, or neither.
:- point(P), #count { S : meets(P,S), differ(S) } = 1.
:- point(P), #count { S : meets(P,S), seen(S) } = 1.
shown(G,V) :- shows(G,V,S), differ(S).
:- shown(G,_), shows(G,V,_), not shown(G,V).
:~ wrong(S,_), length(S,L). [L@1,S]
:- #count { C : full(C) } = 0.
#show wrong/2.
