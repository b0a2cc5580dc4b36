------------------------------ MODULE Percolator ------------------------------
(* Percolator's transactions over several keys, in two phases. A client locks all its keys at its start timestamp, first its primary one, and then turns the
   locks into writes at its commit timestamp. Whether a transaction is committed is told by its primary key alone. *)
EXTENDS Integers, Sequences, FiniteSets, TLC

CONSTANTS KEY,         \* the keys
          CLIENT,      \* the clients, with one transaction each
          CLIENT_KEY   \* the keys of each client's transaction

ASSUME KEY # {}
ASSUME \A c \in CLIENT : CLIENT_KEY[c] \subseteq KEY /\ CLIENT_KEY[c] # {}

VARIABLES next_ts,       \* the last timestamp that was given out
          client_state,  \* what each client does
          client_ts,     \* its timestamps
          client_key,    \* its keys: the primary one, those still to do, and those that are done
          key_lock,      \* of each key the locks,
          key_data,      \* the timestamps at which data were written,
          key_write      \* and the writes that are committed

client_vars == <<client_state, client_ts, client_key>>
key_vars == <<key_lock, key_data, key_write>>
vars == <<next_ts, client_vars, key_vars>>
-----------------------------------------------------------------------------
has_lock_le(k, ts) == \E l \in key_lock[k] : l.ts <= ts
has_lock_eq(k, ts) == \E l \in key_lock[k] : l.ts = ts
has_write_ge(k, ts) == \E w \in key_write[k] : w.commit_ts >= ts

write_of(k, ts) == {w \in key_write[k] : w.start_ts = ts}

\* the transaction that holds this lock is committed, rolled back or still going
is_committed(l) == write_of(l.primary, l.ts) # {}
is_gone(l) == ~ has_lock_eq(l.primary, l.ts) /\ write_of(l.primary, l.ts) = {}
-----------------------------------------------------------------------------
Start(c) ==
  /\ client_state[c] = "init"
  /\ next_ts' = next_ts + 1
  /\ client_state' = [client_state EXCEPT ![c] = "prewriting"]
  /\ client_ts' = [client_ts EXCEPT ![c].start_ts = next_ts']
  /\ UNCHANGED <<client_key, key_vars>>

can_lock(c, k) ==
  /\ key_lock[k] = {}
  /\ ~ has_write_ge(k, client_ts[c].start_ts)

lock_key(c, k) ==
  LET ts == client_ts[c].start_ts
  IN  /\ can_lock(c, k)
      /\ key_lock' = [key_lock EXCEPT ![k] = {[ts |-> ts, primary |-> client_key[c].primary]}]
      /\ key_data' = [key_data EXCEPT ![k] = @ \cup {ts}]
      /\ UNCHANGED key_write

\* the primary key is locked first
Prewrite(c) ==
  /\ client_state[c] = "prewriting"
  /\ \E k \in client_key[c].pending :
       /\ client_key[c].done = {} => k = client_key[c].primary
       /\ lock_key(c, k)
       /\ client_key' = [client_key EXCEPT ![c].pending = @ \ {k}, ![c].done = @ \cup {k}]
  /\ UNCHANGED <<next_ts, client_state, client_ts>>

PrewriteDone(c) ==
  /\ client_state[c] = "prewriting"
  /\ client_key[c].pending = {}
  /\ next_ts' = next_ts + 1
  /\ client_ts' = [client_ts EXCEPT ![c].commit_ts = next_ts']
  /\ client_state' = [client_state EXCEPT ![c] = "committing"]
  /\ UNCHANGED <<client_key, key_vars>>

write_key(c, k) ==
  LET ts == client_ts[c].start_ts
  IN  /\ has_lock_eq(k, ts)
      /\ key_lock' = [key_lock EXCEPT ![k] = {l \in @ : l.ts # ts}]
      /\ key_write' = [key_write EXCEPT ![k] = @ \cup {[start_ts |-> ts, commit_ts |-> client_ts[c].commit_ts]}]
      /\ UNCHANGED key_data

CommitPrimary(c) ==
  /\ client_state[c] = "committing"
  /\ write_key(c, client_key[c].primary)
  /\ client_state' = [client_state EXCEPT ![c] = "committed"]
  /\ UNCHANGED <<next_ts, client_ts, client_key>>

CommitSecondary(c) ==
  /\ client_state[c] = "committed"
  /\ \E k \in client_key[c].done \ {client_key[c].primary} : write_key(c, k)
  /\ UNCHANGED <<next_ts, client_vars>>

\* a client that finds a key locked clears the lock away: forward where its transaction is committed, back where it is gone
CleanLock(c) ==
  /\ client_state[c] = "prewriting"
  /\ \E k \in client_key[c].pending : \E l \in key_lock[k] :
       /\ key_lock' = [key_lock EXCEPT ![k] = @ \ {l}]
       /\ \/ /\ is_committed(l)
             /\ key_write' = [key_write EXCEPT ![k] = @ \cup write_of(l.primary, l.ts)]
             /\ UNCHANGED key_data
          \/ /\ is_gone(l)
             /\ key_data' = [key_data EXCEPT ![k] = @ \ {l.ts}]
             /\ UNCHANGED key_write
          \/ /\ l.primary = k
             /\ write_of(k, l.ts) = {}
             /\ key_data' = [key_data EXCEPT ![k] = @ \ {l.ts}]
             /\ UNCHANGED key_write
  /\ UNCHANGED <<next_ts, client_vars>>

Abort(c) ==
  /\ client_state[c] \in {"prewriting", "committing"}
  /\ client_state' = [client_state EXCEPT ![c] = "aborted"]
  /\ UNCHANGED <<next_ts, client_ts, client_key, key_vars>>
-----------------------------------------------------------------------------
Init ==
  /\ next_ts = 0
  /\ client_state = [c \in CLIENT |-> "init"]
  /\ client_ts = [c \in CLIENT |-> [start_ts |-> 0, commit_ts |-> 0]]
  /\ client_key \in [CLIENT -> [primary : KEY, pending : SUBSET KEY, done : {{}}]]
  /\ \A c \in CLIENT :
       /\ client_key[c].pending = CLIENT_KEY[c]
       /\ client_key[c].primary \in CLIENT_KEY[c]
  /\ key_lock = [k \in KEY |-> {}]
  /\ key_data = [k \in KEY |-> {}]
  /\ key_write = [k \in KEY |-> {}]

Next == \E c \in CLIENT :
  \/ Start(c) \/ Prewrite(c) \/ PrewriteDone(c)
  \/ CommitPrimary(c) \/ CommitSecondary(c)
  \/ CleanLock(c) \/ Abort(c)

PercolatorSpec == Init /\ [][Next]_vars /\ \A c \in CLIENT : WF_vars(Start(c) \/ Prewrite(c) \/ PrewriteDone(c))
-----------------------------------------------------------------------------
TypeOK ==
  /\ next_ts \in Nat
  /\ client_state \in [CLIENT -> {"init", "prewriting", "committing", "committed", "aborted"}]
  /\ client_ts \in [CLIENT -> [start_ts : Nat, commit_ts : Nat]]
  /\ key_lock \in [KEY -> SUBSET [ts : Nat, primary : KEY]]
  /\ key_data \in [KEY -> SUBSET Nat]
  /\ key_write \in [KEY -> SUBSET [start_ts : Nat, commit_ts : Nat]]

UniqueLock == \A k \in KEY : Cardinality(key_lock[k]) <= 1

UniqueWrite == \A k \in KEY : \A v, w \in key_write[k] : (v.commit_ts = w.commit_ts) => (v = w)

\* each write has its data, and no lock beside it
WriteHasData == \A k \in KEY : \A w \in key_write[k] : w.start_ts \in key_data[k] /\ ~ has_lock_eq(k, w.start_ts)

\* what is committed stays so
Committed(c) == client_state[c] = "committed"
CommitStays == \A c \in CLIENT : [](Committed(c) => []Committed(c))

Symmetry == Permutations(KEY) \cup Permutations(CLIENT)

THEOREM Safety ==
  PercolatorSpec => [](/\ TypeOK
                       /\ UniqueLock
                       /\ UniqueWrite
                       /\ WriteHasData)
  PROOF OMITTED

\* a client's timestamps are below any that it will ever see
THEOREM \A ts : ts \in Nat => \A c \in CLIENT : client_ts[c].start_ts = ts => ts <= next_ts
=============================================================================
