---- MODULE Window ----
EXTENDS Integers
VARIABLES sent, acked
Init == acked = 0 /\ sent = 0
Next == sent < acked + 3 /\ sent' = sent + 1 /\ UNCHANGED acked
====
