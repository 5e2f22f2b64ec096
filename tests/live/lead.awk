# A lead worked out from a seed, as hex, a frame each line: groups of balises and markers passed at
# random places, some of them noisy, between quiet frames; odometers that stand still, jump, fall or
# are too high. -v seed=1 -v s=72 -v t=0D: the sync words; -v place=P -v s2=.. -v t2=.. those sent
# from odometer P on. mawk and gawk alike.
function random(n) { seed = (seed * 16807) % 2147483647; return seed % n }
function bits_of(hex,    i, v, k, text) {
    text = ""
    for (i = 1; i <= length(hex); i++) {
        v = index("0123456789ABCDEF", toupper(substr(hex, i, 1))) - 1
        for (k = 8; k >= 1; k = int(k / 2)) text = text (int(v / k) % 2)
    }
    return text
}
function ones(n,    text) { text = ""; while (n-- > 0) text = text "1"; return text }
function zeroes(n,    text) { text = ""; while (n-- > 0) text = text "0"; return text }
# The bits of a balise: its telegrams between the sync words, then quiet line. `M` is a marker, `U`
# a contact that is neither.
function balise(what,    a, b, words, n, text, i) {
    if (what == "M") return zeroes(64 + random(60)) ones(24 + random(9))
    if (what == "U") return zeroes(20 + random(30)) ones(24 + random(9))
    a = odometer >= place ? s2 : s
    b = odometer >= place ? t2 : t
    words = what
    if (words == "R") words = sprintf("%02X%02X%02X", random(256), random(256), random(256))
    n = 2 + random(4)
    text = ""
    for (i = 0; i < n; i++) text = text bits_of(i % 2 ? b : a) bits_of(words)
    return text bits_of(n % 2 ? b : a) ones(24 + random(9))
}
# Noise: one bit in so many turned over.
function noisy(text, one_in,    i, out) {
    out = ""
    for (i = 1; i <= length(text); i++) out = out (random(one_in) ? substr(text, i, 1) : 1 - substr(text, i, 1))
    return out
}
function frame(text,    i, k, v, given) {
    given = odometer
    if (wild && random(40) == 0) given = random(2) ? int(odometer / 2) : 4000000001 + random(1000)
    printf "%08X ", given
    for (i = 0; i < 24; i++) {
        v = 0
        for (k = 1; k <= 4; k++) v = v * 2 + substr(text, 4 * i + k, 1)
        printf "%X", v
    }
    printf "\n"
}
# Frames of all that is on the line, `by` dm a frame at most.
function send(by) {
    while (length(line) >= 96) { frame(substr(line, 1, 96)); line = substr(line, 97); odometer += random(by + 1) }
}
BEGIN {
    if (place == "") place = 4294967295
    groups = split("178E5A 992B4D|C38806 178E5A 992B4D|992B4D 178E5A|178E5A 992BE8|2B5A3C 99174D|A58E5A 992B4D|3C4D71 5A2B66|M 3C994D|3C994D M|178E5A|" \
        "178E5A 992B4D 178E5A|R 992B4D|U 178E5A 992B4D|178E5A 178E5A 178E5A 178E5A 178E5A 178E5A 178E5A|4D8E5A 992B4D E81700 C38806|5A2B66 3C4D71", group, "|")
    for (i = 0; i < 9; i++) random(7)
    odometer = random(3) ? random(2000) : 0
    wild = random(3) == 0
    flips = random(3) == 0
    count = 1 + random(6)
    line = ones(random(300))
    for (g = 0; g < count; g++) {
        n = split(group[1 + random(groups)], balises, " ")
        for (i = 1; i <= n; i++) { line = line (flips ? noisy(balise(balises[i]), 90) : balise(balises[i])); send(2 + random(6)) }
        line = line ones(96 * (1 + random(14)))
        send(1 + random(9))
        if (random(2)) odometer += random(6000)
    }
    if (random(2)) line = line ones(96 - length(line) % 96)
    else line = line zeroes(96 + random(96))
    send(1)
}
