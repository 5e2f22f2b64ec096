"""Hears a lead through the Python binding: leads.py LEAD TRACE, where TRACE is what the program record writes of it with 72 0D. Its last line is 'N passed, M failed'."""
import os
import subprocess
import sys

root = os.path.join(os.path.dirname(os.path.abspath(__file__)), "..", "..")
sys.path.insert(0, os.path.join(root, "bindings"))
import atc2

passed = failed = 0


def same(what, got, wanted):
    global passed, failed
    if got == wanted:
        passed += 1
    else:
        failed += 1
        print("FAILED %s: %r, wanted %r" % (what, got, wanted))


lead, trace = open(sys.argv[1], "rb").read(), open(sys.argv[2], "rb").read()
settings = atc2.Settings(40, 0x72, 0x0D)
for size in list(range(1, 50)) + [len(lead) + 1]:
    ear = atc2.Ear(settings)
    heard = b"".join(ear.hear(lead[at : at + size]) for at in range(0, len(lead), size)) + ear.end()
    same("a lead in pieces of %d" % size, heard, trace)
same("a lead of nothing", atc2.Ear(settings).hear(b"") + atc2.Ear(settings).end(), b"")
same("an ear's bytes", len(bytes(ear)), atc2.EAR)

broken = atc2.Settings(40, 0x72, 0x0D)
broken._store[atc2.STORE - 1] = 33
ear = atc2.Ear(broken)
kept = bytes(ear)
try:
    ear.hear(lead)
    same("a store refused", None, 25)
except atc2.Refused as refused:
    same("a store refused", (refused.number, refused.words), (25, "more than 32 versions"))
same("a refusal leaves the ear", bytes(ear), kept)

ran = subprocess.run([sys.executable, os.path.join(root, "samples", "hear.py"), os.path.join(root, "samples", "one-ride.lead"), "72", "0D"], capture_output=True, text=True)
same("the sample's first lines", ran.stdout.splitlines()[:3], ["980 position 000000", "990 position 000000", "1000 balise 178e5a"])
ran = subprocess.run([sys.executable, os.path.join(root, "samples", "hear.py"), sys.argv[1], "72", "0C"], capture_output=True, text=True)
same("the sample, a bad pair", (ran.returncode, ran.stderr), (1, "hear.py: refused 4: sync pair doesn't differ in seven bits\n"))
print("%d passed, %d failed" % (passed, failed))
sys.exit(failed != 0)
