---------------------------- MODULE LamportMutex ----------------------------
(* Lamport's algorithm for mutual exclusion of processes that send messages to one another and have logical clocks. *)
EXTENDS Naturals, Sequences

CONSTANTS N,        \* how many processes there are
          maxClock  \* how far clocks run, for the search alone

ASSUME NType == N \in Nat
ASSUME maxClockType == maxClock \in Nat

Proc == 1 .. N
Clock == Nat \ {0}

VARIABLES clock,    \* the clock of each process
          req,      \* the requests that each process knows of, by their time, or 0
          ack,      \* which processes have acknowledged the request of a process
          network,  \* the messages that are under way from one process to another
          crit      \* the processes in their critical section

ReqMessage(c) == [type |-> "req", clock |-> c]
AckMessage == [type |-> "ack", clock |-> 0]
RelMessage == [type |-> "rel", clock |-> 0]
Message == {AckMessage, RelMessage} \union {ReqMessage(c) : c \in Clock}

vars == <<req, network, clock, ack, crit>>

Init ==
    /\ clock = [p \in Proc |-> 1]
    /\ req = [p \in Proc |-> [q \in Proc |-> 0]]
    /\ ack = [p \in Proc |-> {}]
    /\ network = [p \in Proc |-> [q \in Proc |-> <<>>]]
    /\ crit = {}

\* the request of p comes before that of q, as far as p knows
beats(p, q) ==
    \/ req[p][q] = 0
    \/ req[p][p] < req[p][q]
    \/ req[p][p] = req[p][q] /\ p < q

Broadcast(s, m) == [r \in Proc |-> IF s = r THEN network[s][r] ELSE Append(network[s][r], m)]

Request(p) ==
    /\ req[p][p] = 0
    /\ req' = [req EXCEPT ![p][p] = clock[p]]
    /\ network' = [network EXCEPT ![p] = Broadcast(p, ReqMessage(clock[p]))]
    /\ ack' = [ack EXCEPT ![p] = {p}]
    /\ UNCHANGED <<clock, crit>>

ReceiveRequest(p, q) ==
    /\ network[q][p] # <<>>
    /\ LET m == Head(network[q][p])
           c == m.clock
       IN  /\ m.type = "req"
           /\ req' = [req EXCEPT ![p][q] = c]
           /\ clock' = [clock EXCEPT ![p] = IF c > clock[p] THEN c + 1 ELSE @ + 1]
           /\ network' = [network EXCEPT ![q][p] = Tail(@), ![p][q] = Append(@, AckMessage)]
           /\ UNCHANGED <<ack, crit>>

ReceiveAck(p, q) ==
    /\ network[q][p] # <<>>
    /\ LET m == Head(network[q][p])
       IN  /\ m.type = "ack"
           /\ ack' = [ack EXCEPT ![p] = @ \union {q}]
           /\ network' = [network EXCEPT ![q][p] = Tail(@)]
           /\ UNCHANGED <<clock, req, crit>>

Enter(p) ==
    /\ ack[p] = Proc
    /\ \A q \in Proc \ {p} : beats(p, q)
    /\ crit' = crit \union {p}
    /\ UNCHANGED <<clock, req, ack, network>>

Exit(p) ==
    /\ p \in crit
    /\ crit' = crit \ {p}
    /\ network' = [network EXCEPT ![p] = Broadcast(p, RelMessage)]
    /\ req' = [req EXCEPT ![p][p] = 0]
    /\ ack' = [ack EXCEPT ![p] = {}]
    /\ UNCHANGED clock

ReceiveRelease(p, q) ==
    /\ network[q][p] # <<>>
    /\ LET m == Head(network[q][p])
       IN  /\ m.type = "rel"
           /\ req' = [req EXCEPT ![p][q] = 0]
           /\ network' = [network EXCEPT ![q][p] = Tail(@)]
           /\ UNCHANGED <<clock, ack, crit>>

Next ==
    \/ \E p \in Proc : Request(p) \/ Enter(p) \/ Exit(p)
    \/ \E p \in Proc : \E q \in Proc \ {p} : ReceiveRequest(p, q) \/ ReceiveAck(p, q) \/ ReceiveRelease(p, q)

Spec == Init /\ [][Next]_vars

ClockConstraint == \A p \in Proc : clock[p] <= maxClock

BoundedNetwork == \A p, q \in Proc : Len(network[p][q]) <= 3

Mutex == \A p, q \in crit : p = q
=============================================================================
