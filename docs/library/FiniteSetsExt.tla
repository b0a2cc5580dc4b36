---- MODULE FiniteSetsExt ----
EXTENDS Integers, FiniteSets

\* The greatest and the least member of a set of numbers.
Max(S) == CHOOSE x \in S : \A y \in S : y <= x

Min(S) == CHOOSE x \in S : \A y \in S : x <= y

\* What belongs to one of two sets and not to both.
SymDiff(A, B) == (A \ B) \cup (B \ A)

\* The subsets with k members: those with one member less, and one more.
kSubset(k, S) ==
    LET OfSize[n \in 0..k] ==
            IF n = 0 THEN {{}} ELSE UNION {{T \cup {x} : x \in S \ T} : T \in OfSize[n - 1]}
    IN  IF k \in 0..Cardinality(S) THEN OfSize[k] ELSE {}

\* The sum and the product of a set of numbers.
SumSet(S) ==
    LET Sum[T \in SUBSET S] ==
            IF T = {} THEN 0 ELSE LET x == CHOOSE y \in T : TRUE IN x + Sum[T \ {x}]
    IN  Sum[S]

ProductSet(S) ==
    LET Product[T \in SUBSET S] ==
            IF T = {} THEN 1 ELSE LET x == CHOOSE y \in T : TRUE IN x * Product[T \ {x}]
    IN  Product[S]
====
