---------------------------- MODULE MCSumSequence ----------------------------
(* Sequences of at most three numbers, for SumSequence. *)
EXTENDS SumSequence
BoundedSeq(S) == UNION {[1 .. k -> S] : k \in 0 .. 3}
=============================================================================
