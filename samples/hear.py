"""Hears a lead and shows its records: hear.py LEAD S S*, the sync words as two hex digits."""
import os
import sys

sys.path.insert(0, os.path.join(os.path.dirname(os.path.abspath(__file__)), "..", "bindings"))
import atc2

if len(sys.argv) != 4:
    sys.exit("usage: hear.py LEAD S S*")
try:
    ear = atc2.Ear(atc2.Settings(40, int(sys.argv[2], 16), int(sys.argv[3], 16)))
    with open(sys.argv[1], "rb") as lead:
        trace = b"".join(ear.hear(piece) for piece in iter(lambda: lead.read(4096), b"")) + ear.end()
except atc2.Refused as refused:
    sys.exit("hear.py: %s" % refused)
for i in range(0, len(trace), 8):
    kind = ("balise", "marker", "unreadable", "position")[trace[i + 4]]
    print(int.from_bytes(trace[i : i + 4], "big"), kind, trace[i + 5 : i + 8].hex())
