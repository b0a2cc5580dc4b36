---- MODULE Reads ----
EXTENDS Integers
VARIABLE x
Init == x = 0
Next == x' = x + 1
Read(n) == x = n /\ UNCHANGED x
Observed == UNCHANGED x
NextObserved == Next \/ Observed
====
