---- MODULE Operators ----
(* What the operations of the published tools make of a value, as this example takes them. `check` holds each row of rows.txt *)
(* against these; compare them with the operators beside your own trace specification.                                       *)
EXTENDS Sequences
CONSTANT Nil
Update(cur, val) == val
Replace(cur, val) == val
AddElement(cur, val) == cur \cup {val}
AddElements(cur, vals) == cur \cup {vals[i] : i \in DOMAIN vals}
RemoveElement(cur, val) == cur \ {val}
AppendElement(cur, val) == Append(cur, val)
Clear(cur) == {}
UpdateRec(cur, val) == [k \in DOMAIN cur |-> IF k \in DOMAIN val THEN val[k] ELSE cur[k]]
RemoveKey(cur, key) == [k \in DOMAIN cur \ {key} |-> cur[k]]
RemoveKeyToNil(cur, key) == [k \in DOMAIN cur |-> IF k = key THEN Nil ELSE cur[k]]
InitWithValue(default, val) == UpdateRec(default, val)
====
