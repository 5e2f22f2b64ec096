"""Lists a card, each fault with its reason, then what is known at its end: ride.py FILE [SETTINGS]

It reads 65,536 bytes at a time: of a longer card whose length is refused, lines come before the refusal; `explain` writes none.
"""
import os
import sys

sys.path.insert(0, os.path.join(os.path.dirname(os.path.abspath(__file__)), "..", "bindings"))
import atc2

if len(sys.argv) not in (2, 3):
    sys.exit("usage: ride.py FILE [SETTINGS]")
try:
    settings = atc2.Settings.read(open(sys.argv[2], "rb").read()) if len(sys.argv) == 3 else atc2.Settings(40, 0x72, 0x0D)
    ride = atc2.Ride(settings)
    with open(sys.argv[1], "rb") as card:
        for records in iter(lambda: card.read(65536), b""):
            sys.stdout.write(ride.list(records, reasons=True))
    sys.stdout.write(ride.end(reasons=True))
    print("known:", ride.known())
except atc2.Refused as refused:
    sys.exit("ride.py: %s" % refused)
