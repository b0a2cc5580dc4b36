--------------------------- MODULE MCReplicatedLog ---------------------------
(* ReplicatedLog with finitely many states: what all nodes have executed is thrown away. *)
EXTENDS FiniteSetsExt
LOCAL INSTANCE Naturals
LOCAL INSTANCE Sequences

CONSTANTS Node, Transaction, Divergence

VARIABLES log, executed

S == INSTANCE ReplicatedLog

LOCAL vars == <<log, executed>>

WriteTx(n, tx) ==
  /\ Len(log) < Divergence
  /\ S!WriteTx(n, tx)

GarbageCollect ==
  LET MinExecuted == Min({executed[o] : o \in Node}) IN
  /\ log' = [i \in 1 .. Len(log) - MinExecuted |-> log[i + MinExecuted]]
  /\ executed' = [n \in Node |-> executed[n] - MinExecuted]

Next ==
  \/ \E n \in Node : \E tx \in Transaction : WriteTx(n, tx)
  \/ \E n \in Node : S!ExecuteTx(n)
  \/ GarbageCollect

Fairness == \A n \in Node : WF_vars(S!ExecuteTx(n))

Spec ==
  /\ S!Init
  /\ [][Next]_vars
  /\ Fairness

TypeOK == S!TypeOK
Convergence == \A n, o \in Node : []<>(executed[n] = executed[o])
=============================================================================
