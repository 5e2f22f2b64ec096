# awk -v needs="NAME.." -v usage=FILE.su -v map=FILE.map -f sizes.awk FILE.s: for each function that
# C can call, the bytes of its code with all that it reaches, and the most bytes of stack below the
# call. It ends with 1, and says why, where the code calls what is not listed in `needs`, or through
# a pointer, or itself again. What the listed functions take is not counted.
BEGIN {
    FS = "[ \t]+"
    n = split(needs, word, " ")
    for (i = 1; i <= n; i++) listed[word[i]] = 1
    while ((getline line <usage) > 0) {
        n = split(line, part, "\t")
        name = part[1]
        sub(/^.*\.ll:/, "", name)
        frame[name] = part[2]
        if (part[3] != "static") wrong(name " has a stack that is not known")
    }
    while ((getline line <map) > 0) {
        if (match(line, /:\(\.text\.[^)]*\)/)) {
            name = substr(line, RSTART + 8, RLENGTH - 9)
        } else if (wasm && match(line, /\.o:\([^)]*\)/)) {
            name = substr(line, RSTART + 4, RLENGTH - 5)
        } else {
            continue
        }
        split(line, part, " ")
        size[name] += value(part[3])
    }
}
function value(hex,   i, v) { v = 0; for (i = 1; i <= length(hex); i++) v = 16 * v + index("0123456789abcdef", substr(hex, i, 1)) - 1; return v }
function wrong(words) { print words; bad = 1 }
function bare(name) { sub(/,.*$/, "", name); gsub(/"/, "", name); return name }

$2 == ".globl" { shown[bare($3)] = 1 }
$2 == ".type" && /function/ { defined[bare($3)] = 1 }
/^["A-Za-z_]/ { name = $0; sub(/:[^:]*$/, "", name); name = bare(name); if (name in defined) current = name }
$2 ~ /^(blx|bx|jalr|call_indirect|blr|br)$/ && $3 != "lr" && $3 != "x30" && $2 != "br" { wrong(current " calls through a pointer: " $0) }
$2 ~ /^(bl|b|b\.w|call|tail|jal|j)$/ && $3 !~ /^(\.L|[0-9])/ { called = bare($3); if (called != "") calls[current] = calls[current] called " " }

# The most stack below a function, and the code that it reaches.
function deep(name,   part, n, i, most, got) {
    if (state[name] == 2) return depth[name]
    if (state[name] == 1) { wrong(name " calls itself again"); return 0 }
    state[name] = 1
    n = split(calls[name], part, " ")
    for (i = 1; i <= n; i++) {
        if (part[i] in defined) { got = deep(part[i]); if (got > most) most = got } else if (!(part[i] in listed)) wrong(name " calls " part[i] ", which is not listed")
    }
    state[name] = 2
    return depth[name] = most + frame[name]
}
function mark(name,   part, n, i) {
    if (name in seen || !(name in defined)) return 0
    seen[name] = 1
    got += size[name]
    n = split(calls[name], part, " ")
    for (i = 1; i <= n; i++) mark(part[i])
}
END {
    for (name in defined) deep(name)
    print "call code stack"
    for (name in shown) if (name in defined) {
        split("", seen)
        got = 0
        mark(name)
        print name, got, depth[name] | "sort"
    }
    close("sort")
    for (name in defined) all += size[name]
    print "all", all, "-"
    exit bad
}
