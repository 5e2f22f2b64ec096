# The contacts of a line and the places in them, worked out from document 01's sentences, as scope
# must draw them. Input: the bits of the line, 0 and 1, in one line. -v s=72 -v t=0D: the sync
# words. Out, for each contact that closes: `START LENGTH`; its bits, at most the first 2,000; and
# for each place whose forty bits are among them `1 X NUMBER` where S stands first and `2 X NUMBER`
# where S* does, X being four units a bit.
function bits_of(hex,    i, text) {
    text = ""
    for (i = 1; i <= length(hex); i++) text = text four[toupper(substr(hex, i, 1))]
    return text
}
# "So M(8,4) is, for 0 to 15"; "a short word that reads 15 is refused in a telegram".
function figure(bits) { return (bits in short) && short[bits] != 15 ? short[bits] : -1 }
# "Check 2^k makes the count of ones even over the positions whose number has 2^k in it; check 0
# makes the whole word even. The sent code M is H with bits 3 and 4 exchanged, and in the long one
# also 11 and 12."
function is_long(bits,    i, at, h, c, ones) {
    for (i = 0; i < 16; i++) {
        at = i == 3 ? 4 : i == 4 ? 3 : i == 11 ? 12 : i == 12 ? 11 : i
        h[i] = substr(bits, 16 - at, 1)
    }
    for (c = 8; c >= 1; c /= 2) { ones = 0; for (i = 0; i < 16; i++) if (int(i / c) % 2) ones += h[i]; if (ones % 2) return 0 }
    ones = 0
    for (i = 0; i < 16; i++) ones += h[i]
    return ones % 2 == 0
}
# "The outer bytes are S and S* in either order, and the three words between are accepted"; "if X
# reads 12, Y and Z are one M(16,11) word".
function is_place(p,    a, z, x) {
    a = substr(line, p + 1, 8); z = substr(line, p + 33, 8)
    if (!(a == first && z == second) && !(a == second && z == first)) return 0
    x = figure(substr(line, p + 9, 8))
    if (x < 0) return 0
    if (x == 12) return is_long(substr(line, p + 17, 16))
    return figure(substr(line, p + 17, 8)) >= 0 && figure(substr(line, p + 25, 8)) >= 0
}
function tell(start, length_,    n, i) {
    n = length_ < 2000 ? length_ : 2000
    print start, length_
    print substr(line, start + 1, n)
    for (i = 0; i + 40 <= n; i++) if (is_place(start + i)) print substr(line, start + i + 1, 8) == first ? 1 : 2, 4 * i, start + i
}
BEGIN {
    for (i = 0; i < 16; i++) four[substr("0123456789ABCDEF", i + 1, 1)] = int(i / 8) % 2 "" int(i / 4) % 2 "" int(i / 2) % 2 "" i % 2
    split("00 17 2B 3C 4D 5A 66 71 8E 99 A5 B2 C3 D4 E8 FF", words, " ")
    for (i = 1; i <= 16; i++) short[bits_of(words[i])] = i - 1
    first = bits_of(s); second = bits_of(t)
}
# "The detector begins with sixteen ones as history. Outside a contact, the bit that brings the
# zeroes among the latest sixteen to 8 or more opens one and is its first bit. Inside, the bit that
# brings them to 4 or fewer closes it and is not part of it."
{
    line = $0
    zeroes = 0; open = -1
    n = length(line)
    for (i = 0; i < n; i++) {
        if (substr(line, i + 1, 1) == "0") zeroes++
        if (i >= 16 && substr(line, i - 15, 1) == "0") zeroes--
        if (open < 0 && zeroes >= 8) open = i
        else if (open >= 0 && zeroes <= 4) { tell(open, i - open); open = -1 }
    }
}
