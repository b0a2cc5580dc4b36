---- MODULE Library ----
EXTENDS Naturals, FiniteSetsExt, SequencesExt
VARIABLES queue, best
Init == queue = <<4, 1, 7>> /\ best = 0
Next == /\ queue # <<>>
        /\ best' = Max({best, Last(queue)})
        /\ queue' = Front(queue)
====
