---- MODULE Lacking ----
EXTENDS Integers
VARIABLES x, y
Init == x = 0 /\ y = 0
Next == \/ x' = x + 1
        \/ x' = x /\ y' = y + 1
====
