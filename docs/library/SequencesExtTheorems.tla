---- MODULE SequencesExtTheorems ----
EXTENDS SequencesExt, SequenceTheorems
====
