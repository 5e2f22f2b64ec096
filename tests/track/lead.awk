# The lead of a track by the house's sentences: the text on standard input, s and t as numbers, n
# frames to a decimetre. One frame a line, in hex. With what=records it writes the records that the
# text is, kinds 0 to 2, in hex; with what=words the words of its balises.
function ones(w,    c) { c = 0; while (w > 0) { c += w % 2; w = int(w / 2) } return c }
function bit(w, i) { return int(w / 2 ^ i) % 2 }
# The plain code: data bits highest first at the places that are no power of two; check 2^k over the
# places with 2^k in their number; check 0 over all.
function plain(figure, bits,    h, i, k, p, c, data) {
    data = bits == 8 ? 4 : 11
    h = 0
    for (i = bits - 1; i >= 0; i--) if (i != 0 && i != 1 && i != 2 && i != 4 && i != 8) { data--; h += bit(figure, data) * 2 ^ i }
    for (p = 1; p < bits; p *= 2) {
        c = 0
        for (i = 0; i < bits; i++) if (i != p && int(i / p) % 2 == 1) c += bit(h, i)
        h += (c % 2) * 2 ^ p
    }
    return h + ones(h) % 2
}
function swapped(h, i, j,    a, b) { a = bit(h, i); b = bit(h, j); return h - a * 2 ^ i - b * 2 ^ j + b * 2 ^ i + a * 2 ^ j }
function short_word(figure) { return swapped(plain(figure, 8), 3, 4) }
function long_word(figure) { return swapped(swapped(plain(figure, 16), 3, 4), 11, 12) }
function hex(v, digits,    r, d) { r = ""; while (digits-- > 0) { d = v % 16; r = substr("0123456789abcdef", d + 1, 1) r; v = int(v / 16) } return r }
{
    sub(/\r$/, ""); sub(/#.*/, "")
    if (NF == 0) next
    count++
    place[count] = $1 + 0
    if ($2 == "marker" || $2 == "unreadable" || $2 == "position") { kind[count] = $2; next }
    kind[count] = "balise"
    if ($2 == 12) { w = long_word($3); x[count] = short_word(12); y[count] = int(w / 256); z[count] = w % 256 }
    else { x[count] = short_word($2); y[count] = short_word($3); z[count] = short_word($4) }
}
END {
    if (what == "records" || what == "words") {
        for (i = 1; i <= count; i++) {
            if (kind[i] == "balise") print hex(place[i], 8) "00" hex(x[i], 2) hex(y[i], 2) hex(z[i], 2)
            else if (what == "records" && kind[i] == "marker") print hex(place[i], 8) "01000000"
            else if (what == "records" && kind[i] == "unreadable") print hex(place[i], 8) "02000000"
        }
        exit
    }
    if (count == 0) exit
    first = place[1] < 10 ? 0 : place[1] - 10
    last = place[count] + 10 > 4000000000 ? 4000000000 : place[count] + 10
    thing = 0; next_thing = 1; since = 0
    for (at = first; at <= last; at++)
        for (j = 0; j < n; j++) {
            while (next_thing <= count && (kind[next_thing] == "position" || (place[next_thing] == at && j == 0))) {
                if (kind[next_thing] != "position") { thing = next_thing; since = 0 }
                next_thing++
            }
            line = ""
            for (b = 0; b < 12; b++) {
                byte = 255
                if (thing && kind[thing] == "marker" && since == 0) byte = 0
                if (thing && kind[thing] == "unreadable" && since == 0) byte = 85
                if (thing && kind[thing] == "balise" && since < 3) {
                    k = (12 * since + b) % 8
                    byte = k % 4 == 1 ? x[thing] : k % 4 == 2 ? y[thing] : k % 4 == 3 ? z[thing] : k == 0 ? s : t
                }
                line = line hex(byte, 2)
            }
            print hex(at, 8) line
            since++
        }
}
