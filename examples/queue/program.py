#!/usr/bin/env python3
"""A bounded queue with two producers and a consumer that write the logs p1.log, p2.log and consumer.log for Queue.tla.
Usage: program.py FOLDER [bug]. With `bug` a producer does not look at the bound."""
import json
import sys
import threading


class Trace:
    def __init__(self, path):
        self.out, self.clock, self.lock = open(path, "w"), 0, threading.Lock()

    def write(self, received=0, **line):
        with self.lock:
            self.clock = max(self.clock, received) + 1
            self.out.write(json.dumps({"clock": self.clock, **line}) + "\n")
            self.out.flush()
            return self.clock


BOUND, MOST, BUG = 2, 3, "bug" in sys.argv[2:]
buffer, changed, last = [], threading.Condition(), [0]


def produce(name, trace):
    for number in range(1, MOST + 1):
        with changed:
            changed.wait_for(lambda: BUG or len(buffer) < BOUND)
            buffer.append({"from": name, "number": number})
            last[0] = trace.write(last[0], event="Enqueued", args=[name, len(buffer)])
            changed.notify_all()


def consume(trace):
    for turn in range(2 * MOST):
        with changed:
            # With the bug the first item is taken late, so that the bound is surely passed.
            wanted = BOUND + 1 if BUG and turn == 0 else 1
            changed.wait_for(lambda: len(buffer) >= wanted)
            last[0] = trace.write(last[0], event="Dequeued", args=[buffer.pop(0)])
            changed.notify_all()


threads = [threading.Thread(target=produce, args=(name, Trace(f"{sys.argv[1]}/{name}.log"))) for name in ("p1", "p2")]
threads.append(threading.Thread(target=consume, args=(Trace(f"{sys.argv[1]}/consumer.log"),)))
for thread in threads:
    thread.start()
for thread in threads:
    thread.join()
