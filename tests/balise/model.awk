# Test balises, and what the detector of document 01 makes of them on one cable, worked out from
# document 01's sentences.
# Input: a line for each balise, `IDLE N X Y Z` or `IDLE N 12 NUMBER`, in the order in which they
# are sent. -v s=72 -v t=0D: the sync words. -v what=bytes prints the bytes in hex, a line for each
# balise; -v what=heard the lines of the contacts.

# "Bits 8, 4, 2, 1, 0 are checks, the rest carry the figure, highest first. Check 2^k makes the
# count of ones even over the positions whose number has 2^k in it; check 0 makes the whole word
# even. The sent code M is H with bits 3 and 4 exchanged, and in the long one also 11 and 12." As
# bits, the highest first.
function word(bits, x,    i, k, c, ones, at, text, h) {
    k = x
    for (i = 0; i < bits; i++) {
        h[i] = 0
        if (i != 0 && i != 1 && i != 2 && i != 4 && i != 8) { h[i] = k % 2; k = int(k / 2) }
    }
    for (c = 8; c >= 1; c = int(c / 2)) if (c < bits) {
        ones = 0
        for (i = 0; i < bits; i++) if (int(i / c) % 2) ones += h[i]
        h[c] = ones % 2
    }
    ones = 0
    for (i = 0; i < bits; i++) ones += h[i]
    h[0] = ones % 2
    text = ""
    for (i = bits - 1; i >= 0; i--) {
        at = i == 3 ? 4 : i == 4 ? 3 : i == 11 ? 12 : i == 12 ? 11 : i
        text = text h[at]
    }
    return text
}
function bits_of(hex,    i, text) {
    text = ""
    for (i = 1; i <= length(hex); i++) text = text four[substr(hex, i, 1)]
    return text
}
function hex_of(bits,    i, text) {
    text = ""
    for (i = 1; i <= length(bits); i += 4) text = text digit[substr(bits, i, 4)]
    return text
}
# "At a place S and S* stand around three words": the figures that stand there, or nothing.
function at_place(p,    a, b, x, y, z, m) {
    a = substr(heard, p, 8); b = substr(heard, p + 32, 8)
    if (!(a == first && b == second) && !(a == second && b == first)) return ""
    x = substr(heard, p + 8, 8); y = substr(heard, p + 16, 8); z = substr(heard, p + 24, 8); m = y z
    if (!(x in figure) || figure[x] == 15) return ""
    if (figure[x] == 12) return m in number ? "12 " number[m] : ""
    if (!(y in figure) || figure[y] == 15 || !(z in figure) || figure[z] == 15) return ""
    return figure[x] " " figure[y] " " figure[z]
}
# "(a) two or more places, all with the same X, Y and Z; (b) two places that differ: 7; (c) at least
# 64 bits long and made of zeroes followed by at most 11 ones: marker; (d) otherwise 8."
function judged(    p, here, count, from, read, differ, zeroes) {
    count = 0; differ = 0
    for (p = 1; p + 39 <= length(heard); p++) {
        here = at_place(p)
        if (here == "") continue
        if (count == 0) { from = start + p - 1; read = here }
        if (here != read) differ = 1
        count++
    }
    if (count >= 2) return differ ? "refused 7: places differ" : "telegram " read " places " count " from " from
    zeroes = match(heard, /^0+/) ? RLENGTH : 0
    if (length(heard) >= 64 && substr(heard, zeroes + 1) !~ /0/ && length(heard) - zeroes <= 11) return "marker"
    return "refused 8: contact neither telegram nor marker"
}
# "The bit that brings the zeroes among the latest sixteen to 8 or more opens one and is its first
# bit. Inside, the bit that brings them to 4 or fewer closes it and is not part of it."
function bit(b) {
    zeroes_now += (b == 0) - (latest[line % 16] == 0)
    latest[line % 16] = b
    if (inside && zeroes_now <= 4) { inside = 0; print start, length(heard), judged() }
    else if (inside) heard = heard b
    else if (zeroes_now >= 8) { inside = 1; start = line; heard = b "" }
    line++
}
BEGIN {
    for (i = 0; i < 16; i++) {
        text = int(i / 8) % 2 "" int(i / 4) % 2 "" int(i / 2) % 2 "" i % 2
        four[sprintf("%X", i)] = text; digit[text] = sprintf("%X", i)
        short[i] = word(8, i); figure[short[i]] = i
        latest[i] = 1
    }
    for (i = 0; i < 2048; i++) { long[i] = word(16, i); number[long[i]] = i }
    first = bits_of(s); second = bits_of(t)
    line = 0; zeroes_now = 0; inside = 0
}
{
    quiet = ""
    for (i = 0; i < $1; i++) quiet = quiet "11111111"
    words = $3 == 12 ? short[12] long[$4] : short[$3] short[$4] short[$5]
    sent = quiet
    for (i = 0; i < $2; i++) sent = sent (i % 2 ? second : first) words
    sent = sent ($2 % 2 ? second : first) quiet
    if (what == "bytes") print hex_of(sent)
    else for (i = 1; i <= length(sent); i++) bit(substr(sent, i, 1) + 0)
}
END { if (what == "heard" && inside) print "refused 9: contact cut by the end of the record" }
