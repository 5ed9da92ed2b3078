% Which grid cells are full, where each segment of the views has its style. A segment lies between two columns of cells; a pair is
% the two cells of these at one depth, counted from the viewer. Columns that are equal draw nothing, columns that begin at
% different depths a solid edge, and others a dashed one.
{ full(C) } :- cell(C).
any(S,D)      :- pair(S,D,A,B), full(A).
any(S,D)      :- pair(S,D,A,B), full(B).
before(S,D+1) :- any(S,D).
before(S,D+1) :- before(S,D), pair(S,D,_,_).
odd(S,D)      :- pair(S,D,A,B), full(A), not full(B).
odd(S,D)      :- pair(S,D,A,B), full(B), not full(A).
differ(S)     :- odd(S,D).
seen(S)       :- odd(S,D), not before(S,D).
:- style(S,blank),  differ(S).
:- style(S,solid),  not seen(S).
:- style(S,dashed), not differ(S).
:- style(S,dashed), seen(S).
:- #count { C : full(C) } = 0.
#show full/1.
