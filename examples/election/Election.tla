------------------------------ MODULE Election ------------------------------
(* Leader election of Raft, after Ongaro's specification: no log entries, and *)
(* terms up to MaxTerm. A message that was sent stays, and may be received    *)
(* again; messages is the set of all that were ever sent.                     *)
EXTENDS Naturals, FiniteSets
CONSTANTS Server, MaxTerm, Nobody
VARIABLES currentTerm, role, votedFor, votesGranted, messages

vars == <<currentTerm, role, votedFor, votesGranted, messages>>

Quorum == {Q \in SUBSET Server : Cardinality(Q) * 2 > Cardinality(Server)}

Init ==
  /\ currentTerm = [s \in Server |-> 1]
  /\ role = [s \in Server |-> "follower"]
  /\ votedFor = [s \in Server |-> Nobody]
  /\ votesGranted = [s \in Server |-> {}]
  /\ messages = {}
-----------------------------------------------------------------------------
(* A follower or a candidate begins an election.                             *)
Timeout(s) ==
  /\ role[s] \in {"follower", "candidate"}
  /\ currentTerm[s] < MaxTerm
  /\ role' = [role EXCEPT ![s] = "candidate"]
  /\ currentTerm' = [currentTerm EXCEPT ![s] = @ + 1]
  /\ votedFor' = [votedFor EXCEPT ![s] = s]
  /\ votesGranted' = [votesGranted EXCEPT ![s] = {s}]
  /\ UNCHANGED messages

RequestVote(s, t) ==
  /\ role[s] = "candidate"
  /\ s # t
  /\ messages' = messages \cup
       {[type |-> "request", term |-> currentTerm[s], from |-> s, to |-> t]}
  /\ UNCHANGED <<currentTerm, role, votedFor, votesGranted>>

(* A server that hears of a later term follows.                              *)
UpdateTerm(s) ==
  \E m \in messages :
    /\ m.to = s
    /\ m.term > currentTerm[s]
    /\ currentTerm' = [currentTerm EXCEPT ![s] = m.term]
    /\ role' = [role EXCEPT ![s] = "follower"]
    /\ votedFor' = [votedFor EXCEPT ![s] = Nobody]
    /\ UNCHANGED <<votesGranted, messages>>

GrantVote(s) ==
  \E m \in messages :
    /\ m.type = "request"
    /\ m.to = s
    /\ m.term = currentTerm[s]
    /\ votedFor[s] \in {Nobody, m.from}
    /\ votedFor' = [votedFor EXCEPT ![s] = m.from]
    /\ messages' = messages \cup
         {[type |-> "vote", term |-> m.term, from |-> s, to |-> m.from]}
    /\ UNCHANGED <<currentTerm, role, votesGranted>>

CountVote(s) ==
  \E m \in messages :
    /\ m.type = "vote"
    /\ m.to = s
    /\ m.term = currentTerm[s]
    /\ role[s] = "candidate"
    /\ votesGranted' = [votesGranted EXCEPT ![s] = @ \cup {m.from}]
    /\ UNCHANGED <<currentTerm, role, votedFor, messages>>

BecomeLeader(s) ==
  /\ role[s] = "candidate"
  /\ votesGranted[s] \in Quorum
  /\ role' = [role EXCEPT ![s] = "leader"]
  /\ UNCHANGED <<currentTerm, votedFor, votesGranted, messages>>
-----------------------------------------------------------------------------
(* What the servers do not write into their logs.                            *)
Unlogged ==
  \/ \E s, t \in Server : RequestVote(s, t)
  \/ \E s \in Server : UpdateTerm(s) \/ GrantVote(s) \/ CountVote(s)

Next == Unlogged \/ \E s \in Server : Timeout(s) \/ BecomeLeader(s)

Spec == Init /\ [][Next]_vars

OneLeader ==
  \A s, t \in Server :
    (role[s] = "leader" /\ role[t] = "leader" /\ currentTerm[s] = currentTerm[t])
      => s = t
=============================================================================
