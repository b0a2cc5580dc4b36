---------------------- MODULE AsyncTerminationDetection ----------------------
(* What an algorithm that detects the end of a computation is to do: it may tell that all is done only when that is so. *)
EXTENDS Naturals

CONSTANT N
ASSUME NIsPosNat == N \in Nat \ {0}

Node == 0 .. N-1

VARIABLES
  active,               \* whether each node is active
  pending,              \* how many messages are on their way to it
  terminationDetected

vars == <<active, pending, terminationDetected>>

terminated == \A n \in Node : ~ active[n] /\ pending[n] = 0

TypeOK ==
  /\ active \in [Node -> BOOLEAN]
  /\ pending \in [Node -> Nat]
  /\ terminationDetected \in BOOLEAN
-----------------------------------------------------------------------------
Init ==
  /\ active \in [Node -> BOOLEAN]
  /\ pending = [n \in Node |-> 0]
  /\ terminationDetected \in {FALSE, terminated}

Terminate(i) ==
  /\ active[i]
  /\ active' = [active EXCEPT ![i] = FALSE]
  /\ pending' = pending
  /\ terminationDetected' \in {terminationDetected, terminated'}

SendMsg(i, j) ==
  /\ active[i]
  /\ pending' = [pending EXCEPT ![j] = @ + 1]
  /\ UNCHANGED <<active, terminationDetected>>

RcvMsg(i) ==
  /\ pending[i] > 0
  /\ active' = [active EXCEPT ![i] = TRUE]
  /\ pending' = [pending EXCEPT ![i] = @ - 1]
  /\ UNCHANGED terminationDetected

DetectTermination ==
  /\ terminated
  /\ terminationDetected' = TRUE
  /\ UNCHANGED <<active, pending>>

Next ==
  \/ \E i \in Node : RcvMsg(i)
  \/ \E i \in Node : Terminate(i)
  \/ \E i, j \in Node : SendMsg(i, j)
  \/ DetectTermination

Spec == Init /\ [][Next]_vars /\ WF_vars(DetectTermination)
-----------------------------------------------------------------------------
Safe == terminationDetected => terminated
Live == terminated ~> terminationDetected
Quiescence == [](terminated => []terminated)

StateConstraint == \A n \in Node : pending[n] <= 3

THEOREM Safety == Spec => []Safe
BY PTL DEF Spec, Safe
=============================================================================
