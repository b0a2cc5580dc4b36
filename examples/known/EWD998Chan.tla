------------------------------ MODULE EWD998Chan ------------------------------
(* EWD998 with messages in the inboxes of the nodes, the token among them. *)
EXTENDS Integers, Sequences, FiniteSets, SequencesExt

CONSTANT N
ASSUME NAssumption == N \in Nat \ {0}

Nodes == 0 .. N-1
Color == {"white", "black"}

VARIABLES
  active,
  color,
  counter,
  inbox     \* the messages that each node has not yet taken

vars == <<active, color, counter, inbox>>

TokenMsg == [type : {"tok"}, q : Int, color : Color]
BasicMsg == [type : {"pl"}]
Message == TokenMsg \cup BasicMsg

TypeOK ==
  /\ counter \in [Nodes -> Int]
  /\ active \in [Nodes -> BOOLEAN]
  /\ color \in [Nodes -> Color]
  /\ inbox \in [Nodes -> Seq(Message)]
  \* there is just one token
  /\ \E i \in Nodes : \E j \in 1 .. Len(inbox[i]) : inbox[i][j].type = "tok"
  /\ \A i, j \in Nodes : \A k \in 1 .. Len(inbox[i]) : \A l \in 1 .. Len(inbox[j]) :
       inbox[i][k].type = "tok" /\ inbox[j][l].type = "tok" => i = j /\ k = l
-----------------------------------------------------------------------------
Init ==
  /\ counter = [i \in Nodes |-> 0]
  /\ inbox = [i \in Nodes |-> IF i = 0
                                THEN <<[type |-> "tok", q |-> 0, color |-> "black"]>>
                                ELSE <<>>]
  /\ active \in [Nodes -> BOOLEAN]
  /\ color \in [Nodes -> Color]

InitiateProbe ==
  /\ \E j \in 1 .. Len(inbox[0]) :
       /\ inbox[0][j].type = "tok"
       /\ \* the last round told nothing
          \/ inbox[0][j].color = "black"
          \/ color[0] = "black"
          \/ counter[0] + inbox[0][j].q # 0
       /\ inbox' = [inbox EXCEPT ![N-1] = Append(@, [type |-> "tok", q |-> 0, color |-> "white"]),
                                 ![0] = RemoveAt(@, j)]
  /\ color' = [color EXCEPT ![0] = "white"]
  /\ UNCHANGED <<active, counter>>

PassToken(i) ==
  /\ ~ active[i]
  /\ \E j \in 1 .. Len(inbox[i]) :
       /\ inbox[i][j].type = "tok"
       /\ LET tkn == inbox[i][j]
          IN  inbox' = [inbox EXCEPT ![i-1] = Append(@, [tkn EXCEPT !.q = tkn.q + counter[i],
                                                                    !.color = IF color[i] = "black"
                                                                                THEN "black"
                                                                                ELSE tkn.color]),
                                     ![i] = RemoveAt(@, j)]
  /\ color' = [color EXCEPT ![i] = "white"]
  /\ UNCHANGED <<active, counter>>

System ==
  \/ InitiateProbe
  \/ \E i \in Nodes \ {0} : PassToken(i)
-----------------------------------------------------------------------------
SendMsg(i) ==
  /\ active[i]
  /\ counter' = [counter EXCEPT ![i] = @ + 1]
  /\ \E j \in Nodes \ {i} : inbox' = [inbox EXCEPT ![j] = Append(@, [type |-> "pl"])]
  /\ UNCHANGED <<active, color>>

RecvMsg(i) ==
  /\ counter' = [counter EXCEPT ![i] = @ - 1]
  /\ color' = [color EXCEPT ![i] = "black"]
  /\ active' = [active EXCEPT ![i] = TRUE]
  /\ \E j \in 1 .. Len(inbox[i]) :
       /\ inbox[i][j].type = "pl"
       /\ inbox' = [inbox EXCEPT ![i] = RemoveAt(@, j)]

Deactivate(i) ==
  /\ active[i]
  /\ active' = [active EXCEPT ![i] = FALSE]
  /\ UNCHANGED <<color, inbox, counter>>

Environment == \E i \in Nodes : SendMsg(i) \/ RecvMsg(i) \/ Deactivate(i)

Next == System \/ Environment

Spec == Init /\ [][Next]_vars /\ WF_vars(System)
-----------------------------------------------------------------------------
StateConstraint ==
  /\ \A i \in Nodes : counter[i] < 3 /\ Len(inbox[i]) < 3

tpos ==
  CHOOSE i \in Nodes : \E j \in 1 .. Len(inbox[i]) : inbox[i][j].type = "tok"

token ==
  LET tok == inbox[tpos][CHOOSE j \in 1 .. Len(inbox[tpos]) : inbox[tpos][j].type = "tok"]
  IN  [pos |-> tpos, q |-> tok.q, color |-> tok.color]

\* It implements EWD998, for which messages are counted alone.
EWD998 == INSTANCE EWD998 WITH token <- token,
                               pending <- [n \in Nodes |-> Len(SelectSeq(inbox[n], LAMBDA msg : msg.type = "pl"))]

EWD998Spec == EWD998!Spec

THEOREM Spec => EWD998Spec
=============================================================================
