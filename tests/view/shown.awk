# What view writes for commands, made from what it writes going straight ahead, a record at a time.
# First file: that. Second: the odometers, a line each. Third: the commands f, b, g and p. (Of a
# record of the second file: its odometer, and whether no ride refuses it for its form or height.)
# Number, kept count, lines, 22 and 23 are those of document 02's M-108; only the state at each
# number is taken as it was shown.
function ahead() { if (number == count) return 23; number++; printf "%s", lines[number]; if (kept < 256) kept++; return 0 }
function back() { if (kept == 0) return 22; number--; kept--; return 0 }
# To a number: back as far as the history goes, further back afresh from the first record.
function go(to,    no) {
    if (to < number && number - to > kept) { number = to; kept = to < 256 ? to : 256; return 0 }
    while (number != to && !no) no = number < to ? ahead() : back()
    return no
}
function show() { printf "%d of %d, kept %d\n%s", number, count, kept, state[number] }
BEGIN { number = kept = count = 0; words[22] = "no state is kept to go back to"; words[23] = "no further record" }
FILENAME != file { file = FILENAME; files++ }
files == 1 && / of [0-9]+, kept / { here = $1 + 0; lines[here] = said; said = ""; inside = 1; next }
files == 1 && inside { state[here] = state[here] $0 "\n"; if ($1 == "next" || $0 == "  no further record") inside = 0; next }
files == 1 { said = said $0 "\n"; next }
files == 2 { good[count] = $2; odometer[count++] = $1; next }
!begun { begun = 1; show() }
{
    refused = 0
    n = NF > 1 ? $2 : 1
    if ($1 == "f") for (i = 0; i < n && !refused; i++) refused = ahead()
    if ($1 == "b") for (i = 0; i < n && !refused; i++) refused = back()
    if ($1 == "g") refused = go(n - 1)
    if ($1 == "p") { for (i = 0; i < count && !(good[i] && odometer[i] >= n); i++); refused = go(i == count ? count + 1 : i) }
    if (refused) print "refused " refused ": " words[refused]
    show()
}
