# The records of a ride from 22,200 dm on, as hex, a record a line: groups of every row, every
# fault, positions, and records of each refusal, in an order that the seed fixes. Variables: seed,
# count.
function any(n) { s = (s * 16807) % 2147483647; return s % n }
function raw(text) { if (n < count) print text; n++ }
function record(rest) { raw(sprintf("%08X %s", at, rest)) }
function near() { at += 10 + any(31) }
function balise(x, y, z) { record("00 " word[x + 1] " " word[y + 1] " " word[z + 1]); near() }
function marker() { record("01 000000"); near() }
function number() { record("00 C3 " long[1 + any(4)]); near() }
function signal() { balise(any(2) ? 1 : 4, any(15), any(15)) }
BEGIN {
    s = seed
    split("00 17 2B 3C 4D 5A 66 71 8E 99 A5 B2 C3 D4 E8 FF", word, " ")
    split("0314 0A21 8806 D1C6", long, " ")
    at = 22200
    while (n < count) {
        kind = any(20)
        if (kind < 5) {
            if (any(3) == 0) number()
            if (any(2)) balise(8, any(15), any(15))
            signal(); balise(9, any(5), 1 + any(14))
        }
        else if (kind == 5) { signal(); balise(9, any(15), 0); balise(14, 1 + any(14), any(15)); number() }
        else if (kind == 6) { balise(10, any(15), any(15)); balise(9, any(15), any(15)) }
        else if (kind == 7) { balise(2, any(15), any(15)); balise(9, any(15), any(15)) }
        else if (kind == 8) { balise(3, any(15), any(15)); if (any(2)) balise(5, any(15), any(15)); else marker() }
        else if (kind == 9) { balise(5, 2, any(15)); balise(3 + 2 * any(3), any(15), any(15)) }
        else if (kind == 10) { balise(9, any(15), any(15)); signal(); if (any(2)) balise(8, 1, 1); if (any(2)) number() }
        else if (kind == 11) { marker(); if (any(2)) balise(2, any(15), any(15)); else balise(3, 9 + any(6), any(15)) }
        else if (kind == 12) signal()
        else if (kind == 13) for (i = 0; i < 6 + any(3); i++) signal()
        else if (kind == 14) { signal(); record(any(2) ? "02 000000" : "00 99 01 4D"); near() }
        else if (kind == 15) for (i = 0; i < 2 + any(4); i++) balise(any(16), any(16), any(16))
        else if (kind == 16) { raw("00000064 03 000000"); record("04 000000") }
        else if (kind == 17) { raw("EE6B2801 03 000000"); record("03 000001") }
        else for (i = 0; i < 1 + any(5); i++) { record("03 000000"); at += 10 }
        at += any(3) ? 45 + any(300) : 1500 * any(6)
    }
}
