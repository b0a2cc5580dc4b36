-------------------------------- MODULE Simple --------------------------------
(* Each of N processes sets its x to 1 and its y to the x of the process before it. When all are done, some y is 1. *)
EXTENDS Integers, TLAPS

CONSTANT N
ASSUME NAssump == (N \in Nat) /\ (N > 0)

(****************************************************************************
--algorithm Simple {
    variables x = [i \in 0 .. (N-1) |-> 0], y = [i \in 0 .. (N-1) |-> 0] ;
    process (proc \in 0 .. N-1) {
      a: x[self] := 1 ;
      b: y[self] := x[(self-1) % N]
    }
}
****************************************************************************)
\* BEGIN TRANSLATION
VARIABLES x, y, pc

vars == << x, y, pc >>

ProcSet == (0..N-1)

Init == (* Global variables *)
        /\ x = [i \in 0..(N-1) |-> 0]
        /\ y = [i \in 0..(N-1) |-> 0]
        /\ pc = [self \in ProcSet |-> "a"]

a(self) == /\ pc[self] = "a"
           /\ x' = [x EXCEPT ![self] = 1]
           /\ pc' = [pc EXCEPT ![self] = "b"]
           /\ y' = y

b(self) == /\ pc[self] = "b"
           /\ y' = [y EXCEPT ![self] = x[(self-1) % N]]
           /\ pc' = [pc EXCEPT ![self] = "Done"]
           /\ x' = x

proc(self) == a(self) \/ b(self)

Next == (\E self \in 0..N-1: proc(self))
           \/ (* Disjunct to prevent deadlock on termination *)
              ((\A self \in ProcSet: pc[self] = "Done") /\ UNCHANGED vars)

Spec == Init /\ [][Next]_vars

Termination == <>(\A self \in ProcSet: pc[self] = "Done")
\* END TRANSLATION
-----------------------------------------------------------------------------
PCorrect ==
  (\A i \in 0..(N-1) : pc[i] = "Done") => (\E i \in 0..(N-1) : y[i] = 1)

TypeOK ==
  /\ x \in [0..(N-1) -> {0, 1}]
  /\ y \in [0..(N-1) -> {0, 1}]
  /\ pc \in [0..(N-1) -> {"a", "b", "Done"}]

Inv ==
  /\ TypeOK
  /\ \A i \in 0..(N-1) : (pc[i] \in {"b", "Done"}) => (x[i] = 1)
  /\ \/ \E i \in 0..(N-1) : pc[i] /= "Done"
     \/ \E i \in 0..(N-1) : y[i] = 1

THEOREM Spec => []PCorrect
<1> USE NAssump
<1>1. Init => Inv
  BY DEF Init, Inv, TypeOK, ProcSet
<1>2. Inv /\ [Next]_vars => Inv'
  BY Z3 DEF Inv, TypeOK, Next, proc, a, b, vars, ProcSet
<1>3. Inv => PCorrect
  BY DEF Inv, TypeOK, PCorrect
<1>4. QED
  BY <1>1, <1>2, <1>3, PTL DEF Spec
=============================================================================
