------------------------------ MODULE Consensus ------------------------------
(* What it is to agree: of the values that are proposed at most one is chosen, and it stays chosen. *)
EXTENDS Naturals, FiniteSets

CONSTANT Value  \* the values that may be chosen

VARIABLE chosen  \* those that are

TypeOK == /\ chosen \subseteq Value
          /\ IsFiniteSet(chosen)

Init == chosen = {}

Next == /\ chosen = {}
        /\ \E v \in Value : chosen' = {v}

Spec == Init /\ [][Next]_chosen

-----------------------------------------------------------------------------
Inv == /\ TypeOK
       /\ Cardinality(chosen) \leq 1

LEMMA InductiveInvariance == Inv /\ [Next]_chosen => Inv'
<1>. SUFFICES ASSUME Inv, [Next]_chosen
              PROVE  Inv'
  OBVIOUS
<1>1. CASE Next
  <2>1. PICK v \in Value : chosen' = {v}
    BY <1>1 DEF Next
  <2>2. Cardinality(chosen') = 1
    BY <2>1, FS_Singleton
  <2>. QED
    BY <2>1, <2>2 DEF Inv, TypeOK
<1>2. CASE UNCHANGED chosen
  BY <1>2 DEF Inv, TypeOK
<1>. QED
  BY <1>1, <1>2

THEOREM Invariance == Spec => []Inv
<1>1. Init => Inv
  BY FS_EmptySet DEF Init, Inv, TypeOK
<1>2. QED
  BY <1>1, InductiveInvariance, PTL DEF Spec

-----------------------------------------------------------------------------
LiveSpec == Spec /\ WF_chosen(Next)

Success == <>(chosen # {})

THEOREM LivenessTheorem == LiveSpec => Success
<1>1. [][Inv /\ [Next]_chosen]_chosen /\ ENABLED <<Next>>_chosen => TRUE
  OBVIOUS
<1>2. QED
  PROOF OMITTED
=============================================================================
