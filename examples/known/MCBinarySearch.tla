---------------------------- MODULE MCBinarySearch ----------------------------
(* Sequences of at most so many values, for BinarySearch. *)
EXTENDS BinarySearch

CONSTANT MaxSeqLen

LimitedSeq(S) == UNION {[1 .. n -> S] : n \in 1 .. MaxSeqLen}
=============================================================================
