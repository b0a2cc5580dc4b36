---- MODULE Local ----
LOCAL INSTANCE Naturals
LOCAL INSTANCE Sequences
VARIABLE queue
LOCAL Longer(q) == Append(q, Len(q))
Init == queue = <<>>
Next == queue' = Longer(queue)
====
