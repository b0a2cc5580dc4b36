#!/usr/bin/env python3
"""A pool of two connections with two clients. It writes a line of a log for each that is taken or given back, to standard output.
Usage: program.py [bug]. With `bug` a client gives a connection back twice, as after an error whose handler does it too."""
import json
import sys
import threading


class Trace:
    def __init__(self, out):
        self.out, self.lock = out, threading.Lock()

    def write(self, **line):
        with self.lock:
            self.out.write(json.dumps(line) + "\n")
            self.out.flush()


class Pool:
    def __init__(self, size, trace):
        self.free, self.trace, self.lock = list(range(size)), trace, threading.Lock()

    def take(self, client):
        with self.lock:
            connection = self.free.pop()
            self.trace.write(event="Take", args=[client], see=[["free", len(self.free)]])
            return connection

    def give(self, client, connection):
        with self.lock:
            self.free.append(connection)
            self.trace.write(event="Give", args=[client], see=[["free", len(self.free)]])


pool = Pool(2, Trace(sys.stdout))
first = pool.take("a")
second = pool.take("b")
pool.give("a", first)
if "bug" in sys.argv[1:]:
    pool.give("a", first)
pool.give("b", second)
