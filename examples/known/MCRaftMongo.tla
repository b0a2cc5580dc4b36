----------------------------- MODULE MCRaftMongo -----------------------------
(* Bounds for RaftMongo. *)
EXTENDS RaftMongo

CONSTANTS MaxTerm, MaxLogLen

StateConstraint == /\ globalCurrentTerm <= MaxTerm
                   /\ \forall i \in Server : Len(log[i]) <= MaxLogLen

ServerSymmetry == Permutations(Server)
=============================================================================
