------------------------- MODULE FiniteReplicatedLog -------------------------
(* A log of at most so many records at each replica, to which records are appended and from which the last ones are taken back. *)
LOCAL INSTANCE Integers

CONSTANTS
  Replicas,
  LogRecords,
  Nil,
  LogSize

ASSUME LogSize \in Nat

VARIABLE logs

Offsets == 0 .. (LogSize - 1)

LOCAL EmptyLog == [endOffset |-> 0, records |-> [offset \in Offsets |-> Nil]]

GetEndOffset(replica) == logs[replica].endOffset

IsFull(replica) == GetEndOffset(replica) = LogSize

HasEntry(replica, record, offset) ==
  /\ offset < GetEndOffset(replica)
  /\ logs[replica].records[offset] = record

Append(replica, record, offset) ==
  /\ ~ IsFull(replica)
  /\ offset = GetEndOffset(replica)
  /\ logs' = [logs EXCEPT ![replica].records[offset] = record,
                          ![replica].endOffset = offset + 1]

TruncateTo(replica, newEndOffset) ==
  /\ newEndOffset <= GetEndOffset(replica)
  /\ logs' = [logs EXCEPT ![replica].records = [offset \in Offsets |-> IF offset < newEndOffset THEN @[offset] ELSE Nil],
                          ![replica].endOffset = newEndOffset]

ReplicateTo(fromReplica, toReplica) ==
  \E offset \in Offsets, record \in LogRecords :
    /\ HasEntry(fromReplica, record, offset)
    /\ Append(toReplica, record, offset)

Init == logs = [replica \in Replicas |-> EmptyLog]

TypeOk == logs \in [Replicas -> [endOffset : 0 .. LogSize, records : [Offsets -> LogRecords \union {Nil}]]]
=============================================================================
