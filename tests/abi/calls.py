"""Calls the Python binding: readings, refusals with number and words, settings, contacts. Its last line is 'N passed, M failed'."""
import os
import subprocess
import sys
import tempfile

root = os.path.join(os.path.dirname(os.path.abspath(__file__)), "..", "..")
sys.path.insert(0, os.path.join(root, "bindings"))
import atc2

passed = failed = 0


def same(what, got, wanted):
    global passed, failed
    if got == wanted:
        passed += 1
    else:
        failed += 1
        print("FAILED %s: %r, wanted %r" % (what, got, wanted))


def refusal(call, *arguments):
    try:
        call(*arguments)
    except atc2.Refused as refused:
        return refused.number, refused.line, str(refused)
    return None


def cut(call, *arguments):
    try:
        call(*arguments)
    except ValueError as error:
        return str(error)
    return None


for figure in range(16):
    same("a short word and back", atc2.read_short(atc2.write_short(figure)), figure)
for figure in range(2048):
    same("a long word and back", atc2.read_long(atc2.write_long(figure)), figure)
same("a word refused", refusal(atc2.read_short, 0x18), (1, 0, "refused 1: not a code word"))
same("a figure too large", refusal(atc2.write_short, 16), (2, 0, "refused 2: figure to write above 15 or above 2,047"))
same("parity of a bad word", (atc2.parity(0x17), atc2.parity(0x18), atc2.parity(0x19), atc2.parity(0x8807, True)), (None, "even", "odd", "odd"))
same("a telegram", atc2.read_telegram(0x17, 0x8E, 0x5A), (1, 8, 5))
same("a number", atc2.read_telegram(0xC3, 0xD1, 0xC6), (12, 1612))
same("a distance", atc2.distance(0, 14), 1750)
same("a distance refused", refusal(atc2.distance, 15, 1), (15, 0, "refused 15: distance not allowed"))

bits = atc2.write_balise(1, 8, 5, 0x72, 0x0D, 10)
same("a balise's length", len(bits), 41)
same("a balise found", atc2.find(bits, 0, len(bits) * 8, 0x72, 0x0D), (0, (1, 8, 5)))
same("a stretch beyond", refusal(atc2.find, b"", 0, 1, 0x72, 0x0D), (5, 0, "refused 5: stretch beyond the buffer, or above 16,777,216 bits"))
line = b"\xff\xff\xff" + bits + b"\xff\xff\xff"
found = list(atc2.contacts(line))
same("one contact of a line", len(found), 1)
same("the contact's telegram", atc2.judge(line, found[0][0], found[0][1], 0x72, 0x0D)[0], (1, 8, 5))
same("a contact cut", refusal(lambda: list(atc2.contacts(line[:20]))), (9, 0, "refused 9: contact cut by the end of the record"))

# Figures that C would cut short: refused before the call.
byte, word, long = "%d is not within 0 to 255", "%d is not within 0 to 4294967295", "%d is not within 0 to 18446744073709551615"
whole = [0, len(bits) * 8, 0x72, 0x0D]
for at, too_large, says in ((0, 2**64, long), (0, -1, long), (1, 2**64, long), (2, 256 + 0x72, byte), (3, 256 + 0x0D, byte), (3, -1, byte)):
    given = whole[:at] + [too_large] + whole[at + 1 :]
    same("find of a figure too large", cut(atc2.find, bits, *given), says % too_large)
    same("judge of a figure too large", cut(atc2.judge, bits, *given), says % too_large)
for start, length, wrong in ((2**64, 0, 2**64), (-1, None, -1), (0, 2**64 + 8, 2**64 + 8)):
    same("contacts of a figure too large", cut(lambda: list(atc2.contacts(line, start, length))), long % wrong)
same("contacts from beyond the line", refusal(lambda: list(atc2.contacts(line, len(line) * 8 + 1)))[0], 5)
for at, too_large, says in ((3, 256 + 0x72, byte), (4, 256 + 0x0D, byte), (5, 2**32 + 10, word), (5, -1, word)):
    given = [1, 8, 5, 0x72, 0x0D, 10]
    given[at] = too_large
    same("a balise of a figure too large", cut(atc2.write_balise, *given), says % too_large)
same("compact with a gap too large", cut(atc2.compact, b"", 2**32 + 40), word % (2**32 + 40))
same("parity of a short word above 255", cut(atc2.parity, 256), byte % 256)
same("parity of a long word above 65535", cut(atc2.parity, 65536, True), "65536 is not within 0 to 65535")

two = atc2.Settings(40, 0x72, 0x0D)
two.add(5200, 60, 0x72, 0x0D)
same("settings read are settings made", bytes(atc2.Settings.read("0 40 72 0D\n5200 60 72 0D\n")), bytes(two))
kept = bytes(two)
same("a place not above", refusal(two.add, 5200, 60, 0x72, 0x0D), (24, 0, "refused 24: place not above the last one"))
same("a refusal leaves the store", bytes(two), kept)
same("settings with a bad line", refusal(atc2.Settings.read, "0 40 72 0D\n\n0 40 72 0D\n"), (24, 3, "line 3 refused 24: place not above the last one"))
same("settings unreadable", refusal(atc2.Settings.read, "0 40\n"), (100, 1, "line 1 refused 100: line unreadable"))
same("settings with a bad gap", refusal(atc2.Settings, 0, 0x72, 0x0D), (19, 0, "refused 19: gap outside 1 to 200"))

with open(os.path.join(root, "samples", "positions.trace"), "rb") as card:
    trace = card.read()
smaller = atc2.compact(trace, 40)
same("a trace made smaller", len(smaller) < len(trace) and atc2.compact(smaller, 40) == smaller, True)
same("a trace of half a record", refusal(atc2.compact, trace[:-4], 40), (16, 0, "refused 16: trace length not a multiple of 8"))

with open(os.path.join(root, "samples", "every-line.trace"), "rb") as card:
    trace = card.read()
settings = atc2.Settings(40, 0x72, 0x0D)
wholes = {}
for reasons in (False, True):
    ride = atc2.Ride(settings)
    wholes[reasons] = ride.list(trace, reasons) + ride.end(reasons)
    same("records listed", ride.number, 1 + len(trace) // 8)
    for records in range(1, 40):
        other = atc2.Ride(settings)
        text = "".join(other.list(trace[at : at + 8 * records], reasons) for at in range(0, len(trace), 8 * records))
        same("a card in pieces of %d records" % records, (text + other.end(reasons), bytes(other), other.known()), (wholes[reasons], bytes(ride), ride.known()))
same("a card's first and last line", (wholes[False].split("\n")[0], wholes[True].split("\n")[-2]), ("1000 present signal first", "22100 fault 12: balise 1 at 22100 unreadable"))
ride = atc2.Ride(settings)
same("no records", (ride.list(b""), ride.end(), ride.number), ("", "", 1))
same("a fresh ride knows nothing", ride.known(), {"odometer": 0, "linking": None, "main": None, "target": None, "number": None})
ride.list(trace[:24])
same("what a signal sets", ride.known(), {"odometer": 3000, "linking": (4000, 1000), "main": 130, "target": 80, "number": None})
kept = bytes(ride)
same("half a record", refusal(ride.list, trace[:12]), (16, 0, "refused 16: trace length not a multiple of 8"))
same("a refusal leaves the ride", (bytes(ride), ride.number), (kept, 4))
ride.begin()
same("begun afresh", (bytes(ride), ride.number), (bytes(atc2.Ride(settings)), 1))
ran = subprocess.run([sys.executable, os.path.join(root, "samples", "ride.py"), os.path.join(root, "samples", "every-line.trace")], capture_output=True, text=True)
same("the sample of a ride", ran.stdout.startswith(wholes[True] + "known: {'odometer': 22130, "), True)

with tempfile.NamedTemporaryFile() as file:
    file.write(line)
    file.flush()
    ran = subprocess.run([sys.executable, os.path.join(root, "samples", "contacts.py"), file.name, "72", "0D"], capture_output=True, text=True)
    same("the sample", ran.stdout, "%d %d %s\n" % (found[0][0], found[0][1], atc2.judge(line, found[0][0], found[0][1], 0x72, 0x0D)))
print("%d passed, %d failed" % (passed, failed))
sys.exit(failed != 0)
