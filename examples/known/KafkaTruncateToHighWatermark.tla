-------------------- MODULE KafkaTruncateToHighWatermark --------------------
(* Kafka's first protocol: who becomes a follower takes back all behind its own high watermark. It is known to lose records. *)
EXTENDS KafkaReplication

BecomeFollowerTruncateToHighWatermark ==
  /\ \E leader, replica \in Replicas, request \in leaderAndIsrRequests :
       LET newHighWatermark == replicaState[replica].hw
       IN  /\ BecomeFollower(replica, leader, request, newHighWatermark)
           /\ ReplicaLog!TruncateTo(replica, newHighWatermark)
  /\ UNCHANGED <<nextRecordId, nextLeaderEpoch, quorumState, leaderAndIsrRequests>>

Next ==
  \/ ControllerElectLeader
  \/ \E replica \in Replicas : ControllerShrinkIsr(replica)
  \/ BecomeLeader
  \/ \E leader, replica \in Replicas : LeaderExpandIsr(leader, replica)
  \/ LeaderWrite
  \/ LeaderIncHighWatermark
  \/ BecomeFollowerTruncateToHighWatermark
  \/ \E follower, leader \in Replicas : FollowerReplicate(follower, leader)

LOCAL vars == <<replicaLog, replicaState, nextRecordId, nextLeaderEpoch, leaderAndIsrRequests, quorumState>>

Spec == Init /\ [][Next]_vars
=============================================================================
