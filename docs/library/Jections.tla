---- MODULE Jections ----
====
