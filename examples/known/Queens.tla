------------------------------- MODULE Queens -------------------------------
(* Places N queens on a board of N rows, so that none can attack another. A solution is a sequence of columns, one for each row. *)
EXTENDS Naturals, Sequences

CONSTANT N
ASSUME N \in Nat \ {0}

Attacks(queens, i, j) ==
    \/ queens[i] = queens[j]
    \/ queens[i] - queens[j] = i - j
    \/ queens[j] - queens[i] = i - j

IsSolution(queens) ==
    \A i \in 1 .. Len(queens) - 1 : \A j \in i + 1 .. Len(queens) : ~ Attacks(queens, i, j)

Solutions == {queens \in [1..N -> 1..N] : IsSolution(queens)}

VARIABLES todo, sols

vars == <<todo, sols>>

Init == /\ todo = {<<>>}
        /\ sols = {}

PlaceQueen ==
    \E queens \in todo :
        LET nxtQ == Len(queens) + 1
            cols == {c \in 1..N : ~ \E i \in 1 .. Len(queens) : Attacks(Append(queens, c), i, nxtQ)}
            exts == {Append(queens, c) : c \in cols}
        IN  IF nxtQ = N
            THEN /\ todo' = todo \ {queens}
                 /\ sols' = sols \cup exts
            ELSE /\ todo' = (todo \ {queens}) \cup exts
                 /\ sols' = sols

Spec == Init /\ [][PlaceQueen]_vars

Liveness == WF_vars(PlaceQueen)

LiveSpec == Spec /\ Liveness

TypeInvariant == /\ todo \in SUBSET Seq(1..N) /\ \A s \in todo : Len(s) < N
                 /\ sols \in SUBSET Seq(1..N) /\ \A s \in sols : Len(s) = N

Invariant == /\ sols \subseteq Solutions
             /\ todo = {} => Solutions \subseteq sols

Termination == <>(todo = {})
=============================================================================
