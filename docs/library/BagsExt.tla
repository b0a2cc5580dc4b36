---- MODULE BagsExt ----
EXTENDS Naturals

\* The bag B with x once more, once less, and not at all.
BagAdd(B, x) == [e \in DOMAIN B \cup {x} |-> IF e \notin DOMAIN B THEN 1 ELSE IF e = x THEN B[e] + 1 ELSE B[e]]

BagRemoveAll(B, x) == [e \in DOMAIN B \ {x} |-> B[e]]

BagRemove(B, x) ==
    IF x \notin DOMAIN B
    THEN B
    ELSE IF B[x] = 1 THEN BagRemoveAll(B, x) ELSE [B EXCEPT ![x] = B[x] - 1]
====
