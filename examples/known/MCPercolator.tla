----------------------------- MODULE MCPercolator -----------------------------
(* Two clients that want the same keys, for Percolator. *)
EXTENDS Percolator
ClientKeys == [c \in CLIENT |-> KEY]
=============================================================================
