"""Lists the contacts of a line and what they read: contacts.py FILE S S*, the sync words as two hex digits."""
import os
import sys

sys.path.insert(0, os.path.join(os.path.dirname(os.path.abspath(__file__)), "..", "bindings"))
import atc2

if len(sys.argv) != 4:
    sys.exit("usage: contacts.py FILE S S*")
with open(sys.argv[1], "rb") as line:
    bits = line.read()
s, t = int(sys.argv[2], 16), int(sys.argv[3], 16)
try:
    for start, length in atc2.contacts(bits):
        try:
            print(start, length, atc2.judge(bits, start, length, s, t) or "marker")
        except atc2.Refused as refused:
            print(start, length, refused)
except atc2.Refused as refused:
    sys.exit("contacts.py: %s" % refused)
