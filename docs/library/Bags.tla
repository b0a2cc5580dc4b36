---- MODULE Bags ----
EXTENDS Naturals, TLC

\* A bag is a function: of each member how often it belongs.
IsABag(B) == \A e \in DOMAIN B : B[e] \in Nat /\ B[e] > 0

BagToSet(B) == DOMAIN B

SetToBag(S) == [e \in S |-> 1]

BagIn(e, B) == e \in DOMAIN B

EmptyBag == SetToBag({})

CopiesIn(e, B) == IF BagIn(e, B) THEN B[e] ELSE 0

BagCardinality(B) ==
    LET Copies[T \in SUBSET DOMAIN B] ==
            IF T = {} THEN 0 ELSE LET e == CHOOSE x \in T : TRUE IN B[e] + Copies[T \ {e}]
    IN  Copies[DOMAIN B]

\* The bag of a set of bags: each member as often as in all of them together.
BagUnion(S) ==
    LET Copies[e \in UNION {DOMAIN B : B \in S}, T \in SUBSET S] ==
            IF T = {} THEN 0 ELSE LET B == CHOOSE C \in T : TRUE IN CopiesIn(e, B) + Copies[e, T \ {B}]
    IN  [e \in UNION {DOMAIN B : B \in S} |-> Copies[e, S]]

\* The bags that have no member more often than B.
SubBag(B) ==
    LET Below[T \in SUBSET DOMAIN B] ==
            IF T = {}
            THEN {EmptyBag}
            ELSE LET e == CHOOSE x \in T : TRUE
                     without == Below[T \ {e}]
                 IN  without \cup {C @@ (e :> n) : C \in without, n \in 1..B[e]}
    IN  Below[DOMAIN B]
====
