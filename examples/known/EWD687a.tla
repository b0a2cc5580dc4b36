------------------------------- MODULE EWD687a -------------------------------
(* Termination detection of a diffusing computation, after Dijkstra and Scholten. Processes send messages along the edges of a graph. An overlay tree of
   the processes that are not neutral shrinks to its leader, which then knows that the computation has ended. *)
EXTENDS Integers

CONSTANTS Procs,   \* the processes
          Leader,  \* the one that starts the computation
          Edges    \* pairs of a sender and a receiver

InEdges(p) == {e \in Edges : e[2] = p}
OutEdges(p) == {e \in Edges : e[1] = p}

ASSUME /\ Leader \in Procs
       /\ Edges \subseteq (Procs \X Procs)
       /\ \A e \in Edges : e[1] # e[2]

NotAnEdge == <<>>

VARIABLES active, sentUnacked, rcvdUnacked, msgs, acks, upEdge

vars == <<active, msgs, acks, sentUnacked, rcvdUnacked, upEdge>>

Init ==
    /\ active = [p \in Procs |-> p = Leader]
    /\ msgs = [e \in Edges |-> 0]
    /\ acks = [e \in Edges |-> 0]
    /\ sentUnacked = [e \in Edges |-> 0]
    /\ rcvdUnacked = [e \in Edges |-> 0]
    /\ upEdge = [p \in Procs \ {Leader} |-> NotAnEdge]

neutral(p) ==
    /\ ~ active[p]
    /\ \A e \in InEdges(p) : rcvdUnacked[e] = 0
    /\ \A e \in OutEdges(p) : sentUnacked[e] = 0

SendMsg(p) ==
    /\ active[p]
    /\ \E e \in OutEdges(p) :
          /\ sentUnacked' = [sentUnacked EXCEPT ![e] = @ + 1]
          /\ msgs' = [msgs EXCEPT ![e] = @ + 1]
    /\ UNCHANGED <<active, acks, rcvdUnacked, upEdge>>

RcvAck(p) ==
    \E e \in OutEdges(p) :
       /\ acks[e] > 0
       /\ acks' = [acks EXCEPT ![e] = @ - 1]
       /\ sentUnacked' = [sentUnacked EXCEPT ![e] = @ - 1]
       /\ UNCHANGED <<active, msgs, rcvdUnacked, upEdge>>

SendAck(p) ==
    /\ \E e \in InEdges(p) :
          /\ rcvdUnacked[e] > 0
          /\ (e = upEdge[p]) =>
                \/ rcvdUnacked[e] > 1
                \/ /\ ~ active[p]
                   /\ \A d \in InEdges(p) \ {e} : rcvdUnacked[d] = 0
                   /\ \A d \in OutEdges(p) : sentUnacked[d] = 0
          /\ rcvdUnacked' = [rcvdUnacked EXCEPT ![e] = @ - 1]
          /\ acks' = [acks EXCEPT ![e] = @ + 1]
    /\ UNCHANGED <<active, msgs, sentUnacked>>
    /\ upEdge' = IF neutral(p)' THEN [upEdge EXCEPT ![p] = NotAnEdge] ELSE upEdge

RcvMsg(p) ==
    \E e \in InEdges(p) :
       /\ msgs[e] > 0
       /\ msgs' = [msgs EXCEPT ![e] = @ - 1]
       /\ rcvdUnacked' = [rcvdUnacked EXCEPT ![e] = @ + 1]
       /\ active' = [active EXCEPT ![p] = TRUE]
       /\ upEdge' = IF neutral(p) THEN [upEdge EXCEPT ![p] = e] ELSE upEdge
       /\ UNCHANGED <<acks, sentUnacked>>

Idle(p) ==
    /\ active' = [active EXCEPT ![p] = FALSE]
    /\ UNCHANGED <<msgs, acks, sentUnacked, rcvdUnacked, upEdge>>

Next ==
    \E p \in Procs : SendMsg(p) \/ RcvAck(p) \/ SendAck(p) \/ RcvMsg(p) \/ Idle(p)

Spec == Init /\ [][Next]_vars /\ WF_vars(Next)

DT1Inv == neutral(Leader) => \A p \in Procs \ {Leader} : neutral(p)

MaxMessages == \A e \in Edges : msgs[e] <= 2 /\ acks[e] <= 2 /\ sentUnacked[e] <= 3 /\ rcvdUnacked[e] <= 3
=============================================================================
