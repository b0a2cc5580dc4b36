----------------------------- MODULE SumSequence -----------------------------
(* Adds up the items of a sequence. *)
EXTENDS Integers, SequenceTheorems, NaturalsInduction, TLAPS, Sequences

CONSTANT Values
ASSUME ValAssump == Values \subseteq Int

(****************************************************************************
--fair algorithm SumSequence {
    variables seq \in Seq(Values), sum = 0, n = 1 ;
    { a: while (n =< Len(seq)) {
           sum := sum + seq[n] ;
           n := n + 1 } }
}
****************************************************************************)
\* BEGIN TRANSLATION
VARIABLES seq, sum, n, pc

vars == << seq, sum, n, pc >>

Init == (* Global variables *)
        /\ seq \in Seq(Values)
        /\ sum = 0
        /\ n = 1
        /\ pc = "a"

a == /\ pc = "a"
     /\ IF n =< Len(seq)
           THEN /\ sum' = sum + seq[n]
                /\ n' = n + 1
                /\ pc' = "a"
           ELSE /\ pc' = "Done"
                /\ UNCHANGED << sum, n >>
     /\ seq' = seq

(* Allow infinite stuttering to prevent deadlock on termination. *)
Terminating == pc = "Done" /\ UNCHANGED vars

Next == a
           \/ Terminating

Spec == /\ Init /\ [][Next]_vars
        /\ WF_vars(Next)

Termination == <>(pc = "Done")
\* END TRANSLATION
-----------------------------------------------------------------------------
SeqSum[s \in Seq(Int)] == IF s = << >> THEN 0 ELSE s[1] + SeqSum[Tail(s)]

PCorrect == (pc = "Done") => (sum = SeqSum[seq])

TypeOK ==
  /\ seq \in Seq(Values)
  /\ sum \in Int
  /\ n \in 1 .. (Len(seq) + 1)
  /\ pc \in {"a", "Done"}

Inv ==
  /\ TypeOK
  /\ sum = SeqSum[[i \in 1 .. (n - 1) |-> seq[i]]]
  /\ (pc = "Done") => (n = Len(seq) + 1)

LEMMA Lemma1 ==
  \A s \in Seq(Int) : SeqSum[s] = IF s = << >> THEN 0 ELSE s[1] + SeqSum[Tail(s)]
<1> DEFINE DefSeqSum(s) == IF s = << >> THEN 0 ELSE s[1] + SeqSum[Tail(s)]
<1>1. \A i \in Nat : \A s \in Seq(Int) : Len(s) = i => SeqSum[s] = DefSeqSum(s)
  OMITTED
<1> QED  BY <1>1, NatInduction, LenProperties

THEOREM Spec => []PCorrect
<1>1. Init => Inv
  BY Lemma1 DEF Init, Inv, TypeOK
<1>2. Inv /\ [Next]_vars => Inv'
  OMITTED
<1>3. Inv => PCorrect
  BY DEF Inv, TypeOK, PCorrect
<1> QED  BY <1>1, <1>2, <1>3, PTL DEF Spec
=============================================================================
