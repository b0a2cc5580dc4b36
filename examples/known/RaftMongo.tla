------------------------------ MODULE RaftMongo ------------------------------
(* How a MongoDB replica set copies its oplog: members pull entries from one another, and tell one another up to where a majority has them. Elections
   happen by magic: whoever is behind no voter may be elected. *)
EXTENDS Integers, FiniteSets, Sequences, TLC

CONSTANT Server  \* the members

VARIABLE globalCurrentTerm  \* the term, which all know
VARIABLE state              \* "Leader" or "Follower"
VARIABLE commitPoint        \* up to where each knows that a majority has the entries
electionVars == <<globalCurrentTerm, state>>

VARIABLE log                \* the oplog of each; an entry is the term in which it was written
logVars == <<log, commitPoint>>

vars == <<electionVars, logVars>>
-----------------------------------------------------------------------------
Quorum == {S \in SUBSET Server : Cardinality(S) * 2 > Cardinality(Server)}

GetTerm(xlog, index) == IF index = 0 THEN 0 ELSE xlog[index].term
LogTerm(i, index) == GetTerm(log[i], index)
LastTerm(xlog) == GetTerm(xlog, Len(xlog))

IsPrefix(s, t) == /\ Len(s) <= Len(t)
                  /\ s = SubSeq(t, 1, Len(s))

Init == /\ globalCurrentTerm = 0
        /\ state = [i \in Server |-> "Follower"]
        /\ commitPoint = [i \in Server |-> [term |-> 0, index |-> 0]]
        /\ log = [i \in Server |-> <<>>]
-----------------------------------------------------------------------------
NotBehind(me, j) == \/ LastTerm(log[me]) > LastTerm(log[j])
                    \/ /\ LastTerm(log[me]) = LastTerm(log[j])
                       /\ Len(log[me]) >= Len(log[j])

\* i pulls the next entry from j
AppendOplog(i, j) ==
    /\ Len(log[i]) < Len(log[j])
    /\ LastTerm(log[i]) = LogTerm(j, Len(log[i]))
    /\ log' = [log EXCEPT ![i] = Append(log[i], log[j][Len(log[i]) + 1])]
    /\ UNCHANGED <<electionVars, commitPoint>>

CanRollbackOplog(i, j) ==
    /\ Len(log[i]) > 0
    /\ LastTerm(log[i]) < LastTerm(log[j])
    /\ \/ Len(log[i]) > Len(log[j])
       \/ /\ Len(log[i]) <= Len(log[j])
          /\ LastTerm(log[i]) # LogTerm(j, Len(log[i]))

\* i takes back its last entry, which j has not
RollbackOplog(i, j) ==
    /\ CanRollbackOplog(i, j)
    /\ log' = [log EXCEPT ![i] = SubSeq(@, 1, Len(@) - 1)]
    /\ UNCHANGED <<electionVars, commitPoint>>

BecomePrimaryByMagic(i, ayeVoters) ==
    /\ \A j \in ayeVoters : NotBehind(i, j)
    /\ i \in ayeVoters
    /\ state' = [index \in Server |-> IF index \notin ayeVoters
                                      THEN state[index]
                                      ELSE IF index = i THEN "Leader" ELSE "Follower"]
    /\ globalCurrentTerm' = globalCurrentTerm + 1
    /\ UNCHANGED logVars

ClientWrite(i) ==
    /\ state[i] = "Leader"
    /\ log' = [log EXCEPT ![i] = Append(@, [term |-> globalCurrentTerm])]
    /\ UNCHANGED <<electionVars, commitPoint>>

\* the last entry of i's own, in its term, that a majority has
AdvanceCommitPoint(i) ==
    /\ state[i] = "Leader"
    /\ Len(log[i]) > 0
    /\ LastTerm(log[i]) = globalCurrentTerm
    /\ \E Q \in Quorum : \A j \in Q : /\ Len(log[j]) >= Len(log[i])
                                      /\ LogTerm(j, Len(log[i])) = LastTerm(log[i])
    /\ commitPoint' = [commitPoint EXCEPT ![i] = [term |-> LastTerm(log[i]), index |-> Len(log[i])]]
    /\ UNCHANGED <<electionVars, log>>

CommitPointLessThan(i, j) ==
    \/ commitPoint[i].term < commitPoint[j].term
    \/ /\ commitPoint[i].term = commitPoint[j].term
       /\ commitPoint[i].index < commitPoint[j].index

\* i learns the commit point of j, where it has the term of it already
LearnCommitPoint(i, j) ==
    /\ CommitPointLessThan(i, j)
    /\ commitPoint[j].term = LastTerm(log[i])
    /\ commitPoint' = [commitPoint EXCEPT ![i] = commitPoint[j]]
    /\ UNCHANGED <<electionVars, log>>
-----------------------------------------------------------------------------
AppendOplogAction == \E i, j \in Server : AppendOplog(i, j)
RollbackOplogAction == \E i, j \in Server : RollbackOplog(i, j)
BecomePrimaryByMagicAction == \E i \in Server : \E ayeVoters \in Quorum : BecomePrimaryByMagic(i, ayeVoters)
ClientWriteAction == \E i \in Server : ClientWrite(i)
AdvanceCommitPointAction == \E i \in Server : AdvanceCommitPoint(i)
LearnCommitPointAction == \E i, j \in Server : LearnCommitPoint(i, j)

Next ==
    \/ AppendOplogAction
    \/ RollbackOplogAction
    \/ BecomePrimaryByMagicAction
    \/ ClientWriteAction
    \/ AdvanceCommitPointAction
    \/ LearnCommitPointAction

Liveness ==
    /\ SF_vars(AppendOplogAction)
    /\ SF_vars(RollbackOplogAction)
    /\ WF_vars(BecomePrimaryByMagicAction)
    /\ WF_vars(LearnCommitPointAction)

SpecBehavior == Init /\ [][Next]_vars /\ Liveness
-----------------------------------------------------------------------------
RollbackCommitted(i) ==
    /\ \E j \in Server : CanRollbackOplog(i, j)
    /\ commitPoint[i].index >= Len(log[i])

NeverRollbackCommitted == \forall i \in Server : ~ RollbackCommitted(i)

\* What a majority has is in the log of whoever is elected.
LeadersHaveIt == \forall i, j \in Server :
    state[i] = "Leader" => IsPrefix(SubSeq(log[j], 1, commitPoint[j].index), log[i])

CommitPointEventuallyPropagates == \A i, j \in Server : []<>(commitPoint[i] = commitPoint[j])

StepUp == \E i \in Server : ENABLED BecomePrimaryByMagic(i, Server)
=============================================================================
