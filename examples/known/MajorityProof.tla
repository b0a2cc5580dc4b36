----------------------------- MODULE MajorityProof -----------------------------
(* That the candidate of Majority is right. *)
EXTENDS Majority, FiniteSetTheorems, TLAPS

LEMMA TypeCorrect == Spec => []TypeOK
<1>1. Init => TypeOK
  BY ConstAssump DEF Init, TypeOK
<1>2. TypeOK /\ [Next]_vars => TypeOK'
  BY DEF TypeOK, Next, vars
<1> QED  BY <1>1, <1>2, PTL DEF Spec

LEMMA PositionsOne == \A v : PositionsBefore(v, 1) = {}
BY DEF PositionsBefore

LEMMA PositionsFinite ==
  ASSUME TypeOK, NEW v, NEW j \in 1 .. Len(seq) + 1
  PROVE  IsFiniteSet(PositionsBefore(v, j))
<1>1. 1 .. (j - 1) \in SUBSET (1 .. Len(seq)) /\ IsFiniteSet(1 .. (j - 1))
  BY FS_Interval DEF TypeOK
<1> QED  BY <1>1, FS_Subset DEF PositionsBefore

THEOREM Spec => []Correct
<1>1. Init => Inv
  BY PositionsOne, FS_EmptySet DEF Init, Inv, OccurrencesBefore
<1>2. TypeOK /\ Inv /\ [Next]_vars => Inv'
  OMITTED
<1>3. TypeOK /\ Inv => Correct
  BY DEF TypeOK, Inv, Correct, Occurrences
<1> QED  BY <1>1, <1>2, <1>3, TypeCorrect, PTL DEF Spec
=============================================================================
