-------------------------- MODULE KafkaReplication --------------------------
(* How a partition of Kafka is replicated: a controller chooses the leader and the replicas in sync; followers copy the leader's log. *)
EXTENDS Integers

CONSTANTS
  Replicas,
  LogSize,
  MaxRecords,
  MaxLeaderEpoch

None == "NONE"
Nil == [id |-> -1, epoch |-> -1]

ASSUME None \notin Replicas

VARIABLES
  replicaLog,            \* the log of each replica
  replicaState,          \* what each knows: leader, epoch, replicas in sync, high watermark
  nextRecordId,
  nextLeaderEpoch,
  leaderAndIsrRequests,  \* what the controller has told
  quorumState            \* what the controller knows

LeaderEpochSeq == INSTANCE IdSequence WITH MaxId <- MaxLeaderEpoch, nextId <- nextLeaderEpoch
RecordSeq == INSTANCE IdSequence WITH MaxId <- MaxRecords, nextId <- nextRecordId

LogRecords == [id : RecordSeq!IdSet, epoch : LeaderEpochSeq!IdSet]

ReplicaLog == INSTANCE FiniteReplicatedLog WITH logs <- replicaLog

LOCAL Max(a, b) == IF a > b THEN a ELSE b

QuorumUpdateLeaderAndIsr(newLeader, newIsr) ==
  \E newLeaderEpoch \in LeaderEpochSeq!IdSet :
    /\ LeaderEpochSeq!NextId(newLeaderEpoch)
    /\ LET newControllerState == [leader |-> newLeader, leaderEpoch |-> newLeaderEpoch, isr |-> newIsr]
       IN  /\ quorumState' = newControllerState
           /\ leaderAndIsrRequests' = leaderAndIsrRequests \union {newControllerState}
-----------------------------------------------------------------------------
\* A replica failed, or is too far behind.
ControllerShrinkIsr(replica) ==
  /\ \/ /\ quorumState.leader = replica
        /\ quorumState.isr = {replica}
        /\ QuorumUpdateLeaderAndIsr(None, quorumState.isr)
     \/ /\ quorumState.leader = replica
        /\ quorumState.isr # {replica}
        /\ \E newLeader \in quorumState.isr \ {replica} :
             QuorumUpdateLeaderAndIsr(newLeader, quorumState.isr \ {replica})
     \/ /\ quorumState.leader # replica
        /\ replica \in quorumState.isr
        /\ QuorumUpdateLeaderAndIsr(quorumState.leader, quorumState.isr \ {replica})
  /\ UNCHANGED <<nextRecordId, replicaLog, replicaState>>

ControllerElectLeader ==
  /\ \E newLeader \in quorumState.isr :
       /\ quorumState.leader # newLeader
       /\ QuorumUpdateLeaderAndIsr(newLeader, quorumState.isr)
  /\ UNCHANGED <<nextRecordId, replicaLog, replicaState>>

BecomeLeader ==
  \E request \in leaderAndIsrRequests :
    LET leader == request.leader
    IN  /\ leader # None
        /\ request.leaderEpoch > replicaState[leader].leaderEpoch
        /\ replicaState' = [replicaState EXCEPT ![leader] = [hw |-> @.hw,
                                                             leaderEpoch |-> request.leaderEpoch,
                                                             leader |-> leader,
                                                             isr |-> request.isr]]
        /\ UNCHANGED <<nextRecordId, replicaLog, nextLeaderEpoch, leaderAndIsrRequests, quorumState>>

ReplicaPresumesLeadership(replica) == replicaState[replica].leader = replica

ReplicaIsFollowing(follower, leader) == replicaState[follower].leader = leader

IsTrueLeader(leader) ==
  /\ quorumState.leader = leader
  /\ ReplicaPresumesLeadership(leader)
  /\ replicaState[leader].leaderEpoch = quorumState.leaderEpoch

LeaderWrite ==
  /\ \E replica \in Replicas, id \in RecordSeq!IdSet, offset \in ReplicaLog!Offsets :
       /\ ReplicaPresumesLeadership(replica)
       /\ RecordSeq!NextId(id)
       /\ LET record == [id |-> id, epoch |-> replicaState[replica].leaderEpoch]
          IN  ReplicaLog!Append(replica, record, offset)
  /\ UNCHANGED <<replicaState, quorumState, nextLeaderEpoch, leaderAndIsrRequests>>

LeaderExpandIsr(leader, newIsrMember) ==
  /\ ReplicaPresumesLeadership(leader)
  /\ IsTrueLeader(leader)
  /\ newIsrMember \notin quorumState.isr
  /\ ReplicaIsFollowing(newIsrMember, leader)
  /\ ReplicaLog!GetEndOffset(newIsrMember) >= replicaState[leader].hw
  /\ quorumState' = [quorumState EXCEPT !.isr = @ \union {newIsrMember}]
  /\ replicaState' = [replicaState EXCEPT ![leader].isr = @ \union {newIsrMember}]
  /\ UNCHANGED <<nextLeaderEpoch, leaderAndIsrRequests, nextRecordId, replicaLog>>

\* The high watermark goes on behind what all replicas in sync have.
LeaderIncHighWatermark ==
  /\ \E leader \in Replicas :
       LET highWatermark == replicaState[leader].hw
       IN  /\ ReplicaPresumesLeadership(leader)
           /\ highWatermark < ReplicaLog!GetEndOffset(leader)
           /\ \A follower \in replicaState[leader].isr \ {leader} :
                /\ ReplicaIsFollowing(follower, leader)
                /\ ReplicaLog!GetEndOffset(follower) > highWatermark
           /\ replicaState' = [replicaState EXCEPT ![leader].hw = @ + 1]
  /\ UNCHANGED <<nextRecordId, replicaLog, nextLeaderEpoch, leaderAndIsrRequests, quorumState>>

BecomeFollower(replica, leader, request, newHighWatermark) ==
  /\ request.leader = leader
  /\ leader # None /\ leader # replica
  /\ request.leaderEpoch > replicaState[replica].leaderEpoch
  /\ replicaState' = [replicaState EXCEPT ![replica] = [leaderEpoch |-> request.leaderEpoch,
                                                        leader |-> leader,
                                                        isr |-> request.isr,
                                                        hw |-> newHighWatermark]]

FollowerReplicate(follower, leader) ==
  /\ ReplicaPresumesLeadership(leader)
  /\ ReplicaIsFollowing(follower, leader)
  /\ replicaState[follower].leaderEpoch = replicaState[leader].leaderEpoch
  /\ ReplicaLog!ReplicateTo(leader, follower)
  /\ LET leaderHw == replicaState[leader].hw
         followerHw == IF leaderHw <= ReplicaLog!GetEndOffset(follower) + 1
                         THEN leaderHw
                         ELSE ReplicaLog!GetEndOffset(follower) + 1
     IN  replicaState' = [replicaState EXCEPT ![follower].hw = Max(@, followerHw)]
  /\ UNCHANGED <<nextRecordId, nextLeaderEpoch, leaderAndIsrRequests, quorumState>>
-----------------------------------------------------------------------------
Init ==
  /\ ReplicaLog!Init
  /\ RecordSeq!Init
  /\ LeaderEpochSeq!Init
  /\ replicaState = [replica \in Replicas |-> [hw |-> 0, leaderEpoch |-> -1, leader |-> None, isr |-> {}]]
  /\ leaderAndIsrRequests = {}
  /\ quorumState = [leader |-> None, leaderEpoch |-> -1, isr |-> Replicas]

TypeOk ==
  /\ LeaderEpochSeq!TypeOk
  /\ RecordSeq!TypeOk
  /\ ReplicaLog!TypeOk

\* What stands below a leader's high watermark is the same in sync.
WeakIsr ==
  \A r1 \in Replicas :
    ReplicaPresumesLeadership(r1) =>
      \A r2 \in replicaState[r1].isr, offset \in ReplicaLog!Offsets :
        offset >= replicaState[r1].hw
          \/ \E record \in LogRecords : ReplicaLog!HasEntry(r1, record, offset) /\ ReplicaLog!HasEntry(r2, record, offset)
=============================================================================
