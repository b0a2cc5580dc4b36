----------------------------- MODULE IdSequence -----------------------------
(* Numbers that are given out one behind the other. *)
EXTENDS Integers

CONSTANT MaxId

ASSUME MaxId \in Nat

VARIABLE nextId

IdSet == 0 .. MaxId

TypeOk == nextId \in 0 .. MaxId + 1

Init == nextId = 0

NextId(id) ==
  /\ nextId <= MaxId
  /\ id = nextId
  /\ nextId' = nextId + 1
=============================================================================
