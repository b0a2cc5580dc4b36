---- MODULE TwoPhaseTrace ----
(* For a trace whose line of TMRcvPrepared does not say from whom: see examples/convert. *)
EXTENDS TwoPhase
SomeRcvPrepared == \E r \in RM : TMRcvPrepared(r)
====
