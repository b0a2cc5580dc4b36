----------------------- MODULE MongoLoglessDynamicRaft -----------------------
(* How the members of a MongoDB replica set change who the members are. There is no log of configurations: each server keeps the newest one that it knows,
   by the term in which it was made and its version. *)
EXTENDS Naturals, Integers, FiniteSets, Sequences, TLC

CONSTANTS Server,              \* the servers that there may be
          Secondary, Primary,  \* what a server may be
          Nil,
          InitTerm             \* the term in which all begin

VARIABLE currentTerm    \* the newest term that each server knows
VARIABLE state          \* whether it is primary
VARIABLE configVersion  \* of the configuration that it keeps, the version,
VARIABLE configTerm     \* the term
VARIABLE config         \* and the members

serverVars == <<currentTerm, state>>
configVars == <<configVersion, configTerm, config>>
vars == <<currentTerm, state, configVersion, configTerm, config>>

-----------------------------------------------------------------------------
Min(s) == CHOOSE x \in s : \A y \in s : x <= y
Max(s) == CHOOSE x \in s : \A y \in s : x >= y
Empty(s) == Len(s) = 0

Quorums(S) == {Q \in SUBSET S : Cardinality(Q) * 2 > Cardinality(S)}

QuorumsOverlap(C, D) == \A P \in Quorums(C), Q \in Quorums(D) : P \cap Q # {}

\* what i keeps is newer than what j keeps
IsNewerConfig(i, j) ==
    \/ configTerm[i] > configTerm[j]
    \/ /\ configTerm[i] = configTerm[j]
       /\ configVersion[i] > configVersion[j]

IsNewerOrEqualConfig(i, j) ==
    \/ IsNewerConfig(i, j)
    \/ /\ configTerm[i] = configTerm[j]
       /\ configVersion[i] = configVersion[j]

CanVoteForConfig(voter, i, term) ==
    /\ currentTerm[voter] < term
    /\ IsNewerOrEqualConfig(i, voter)

\* a quorum of its members keeps the configuration of i, and is in its term
ConfigQuorumCheck(i) ==
    \E Q \in Quorums(config[i]) : \A t \in Q :
        /\ configVersion[t] = configVersion[i]
        /\ configTerm[t] = configTerm[i]

TermQuorumCheck(i) ==
    \E Q \in Quorums(config[i]) : \A t \in Q : currentTerm[t] = currentTerm[i]

-----------------------------------------------------------------------------
UpdateTerms(i, j) ==
    /\ currentTerm[i] > currentTerm[j]
    /\ currentTerm' = [currentTerm EXCEPT ![j] = currentTerm[i]]
    /\ state' = [state EXCEPT ![j] = Secondary]
    /\ UNCHANGED configVars

BecomeLeader(i, voters) ==
    LET newTerm == currentTerm[i] + 1
    IN  /\ i \in config[i]
        /\ i \in voters
        /\ \A v \in voters : CanVoteForConfig(v, i, newTerm)
        /\ currentTerm' = [s \in Server |-> IF s \in voters THEN newTerm ELSE currentTerm[s]]
        /\ state' = [s \in Server |->
                        IF s = i THEN Primary
                        ELSE IF s \in voters THEN Secondary
                        ELSE state[s]]
        /\ configTerm' = [configTerm EXCEPT ![i] = newTerm]
        /\ UNCHANGED <<config, configVersion>>

Reconfig(i, newConfig) ==
    /\ state[i] = Primary
    /\ ConfigQuorumCheck(i)
    /\ TermQuorumCheck(i)
    /\ QuorumsOverlap(config[i], newConfig)
    /\ i \in newConfig
    /\ configTerm' = [configTerm EXCEPT ![i] = currentTerm[i]]
    /\ configVersion' = [configVersion EXCEPT ![i] = @ + 1]
    /\ config' = [config EXCEPT ![i] = newConfig]
    /\ UNCHANGED serverVars

SendConfig(i, j) ==
    /\ state[j] = Secondary
    /\ IsNewerConfig(i, j)
    /\ configVersion' = [configVersion EXCEPT ![j] = configVersion[i]]
    /\ configTerm' = [configTerm EXCEPT ![j] = configTerm[i]]
    /\ config' = [config EXCEPT ![j] = config[i]]
    /\ UNCHANGED serverVars

-----------------------------------------------------------------------------
Init ==
    /\ currentTerm = [i \in Server |-> InitTerm]
    /\ state = [i \in Server |-> Secondary]
    /\ configVersion = [i \in Server |-> 1]
    /\ configTerm = [i \in Server |-> InitTerm]
    /\ \E initConfig \in SUBSET Server :
        /\ initConfig # {}
        /\ config = [i \in Server |-> initConfig]

ReconfigAction == \E s \in Server, newConfig \in SUBSET Server : Reconfig(s, newConfig)
SendConfigAction == \E s, t \in Server : SendConfig(s, t)
BecomeLeaderAction == \E s \in Server : \E Q \in Quorums(config[s]) : BecomeLeader(s, Q)
UpdateTermsAction == \E s, t \in Server : UpdateTerms(s, t)

Next ==
    \/ ReconfigAction
    \/ SendConfigAction
    \/ BecomeLeaderAction
    \/ UpdateTermsAction

Spec == Init /\ [][Next]_vars /\ WF_vars(SendConfigAction)

-----------------------------------------------------------------------------
\* At most one primary in a term.
ElectionSafety ==
    \A x, y \in Server :
        (state[x] = Primary /\ state[y] = Primary /\ currentTerm[x] = currentTerm[y]) => (x = y)

\* What a server keeps grows older never.
ConfigsGrow == [][\A s \in Server :
    \/ configTerm'[s] > configTerm[s]
    \/ configTerm'[s] = configTerm[s] /\ configVersion'[s] >= configVersion[s]]_vars

\* A primary stays up to date for ever.
LeadersHold == <>[](\E s \in Server : state[s] = Primary)
Propagates == \A i, j \in Server : (configVersion[i] > configVersion[j]) ~> (configVersion[j] >= configVersion[i])

CONSTANTS MaxTerm, MaxConfigVersion

StateConstraint == \A s \in Server :
    /\ currentTerm[s] <= MaxTerm
    /\ configVersion[s] <= MaxConfigVersion

ServerSymmetry == Permutations(Server)
=============================================================================
