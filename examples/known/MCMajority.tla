------------------------------ MODULE MCMajority ------------------------------
(* Sequences of at most so many values, for Majority. *)
EXTENDS MajorityProof

CONSTANT bound

BoundedSeq(S) == UNION {[1 .. n -> S] : n \in 0 .. bound}
=============================================================================
