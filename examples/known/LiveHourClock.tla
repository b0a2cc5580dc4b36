--------------------------- MODULE LiveHourClock ---------------------------
(* The clock of HourClock, which never stops. *)
EXTENDS HourClock
LSpec == HC /\ WF_hr(HCnxt)
----------------------------------------------------------------------------
AlwaysTick == []<><<HCnxt>>_hr
AllTimes == \A n \in 1..12 : []<>(hr = n)
TypeInvariance == []HCini
----------------------------------------------------------------------------
THEOREM LSpec => AlwaysTick /\ AllTimes
============================================================================
