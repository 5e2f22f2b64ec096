# awk -f narrow.awk MODULE.ll: the module with the same memory on every processor, for those whose
# pointers are shorter than 64 bits. Memory is laid out for pointers of 64 bits: a place for one has
# eight bytes, and a shorter pointer fills the first of them (the bytes of a number, and so of a
# pointer, begin with the lowest on each processor of targets.txt). So a place for a pointer becomes
# eight bytes, and a pointer in a larger value, as { i8, ptr }, becomes a number of 64 bits, taken
# for a pointer where it comes out, and for a number where it goes in. Of such a number the upper half
# may be anything, so no word says that it is known. Where a place lies is a number of 64 bits. portable.awk has refused what would read such a
# place otherwise.
function inside(types, n,    part) { split(types, part, /, */); return part[n + 1] }
{
    # What lies within quotes is a name.
    count = split($0, piece, "\"")
    code = ""
    for (i = 1; i <= count; i += 2) code = code piece[i]
    if (code ~ /^ +%[^ ]+ = ptrtoaddr /) sub(/ptrtoaddr/, "ptrtoint")
    if (code ~ / = alloca ptr/) sub(/alloca ptr, align [0-9]+/, "alloca [8 x i8], align 8")
    if (code !~ /\{[^{}]*ptr[^{}]*\}/ || /^!/) { print; next }
    if (match($0, /^ +%[^ ]+ = extractvalue \{ [^{}]* \} /)) {
        types = substr($0, RSTART, RLENGTH)
        sub(/^[^{]*\{ /, "", types)
        sub(/ \} $/, "", types)
        n = $0
        sub(/^.*, /, "", n)
        wide = types
        gsub(/ptr/, "i64", wide)
        name = $1
        rest = substr($0, RSTART + RLENGTH)
        if (inside(types, n + 0) == "ptr") {
            printf "  %s.wide = extractvalue { %s } %s\n", name, wide, rest
            printf "  %s = inttoptr i64 %s.wide to ptr\n", name, name
        } else printf "  %s = extractvalue { %s } %s\n", name, wide, rest
        next
    }
    if (match($0, /^ +%[^ ]+ = insertvalue \{ [^{}]* \} [^ ]+, ptr [^ ]+, /)) {
        head = substr($0, RSTART, RLENGTH)
        n = substr($0, RSTART + RLENGTH)
        put = head
        sub(/, $/, "", put)
        sub(/^.*, ptr /, "", put)
        printf "  %s.wide = ptrtoint ptr %s to i64\n", $1, put
        sub(/, ptr [^ ]+, $/, ", i64 " $1 ".wide, ", head)
        $0 = head n
    }
    gsub(/noundef \{/, "{")
    sub(/, !noundef ![0-9]+/, "")
    # Types, outside of quotes.
    line = ""
    for (i = 1; i <= split($0, piece, "\""); i++) {
        part = piece[i]
        if (i % 2) {
            out = ""
            while (match(part, /\{[^{}]*\}/)) {
                type = substr(part, RSTART, RLENGTH)
                gsub(/ptr/, "i64", type)
                out = out substr(part, 1, RSTART - 1) type
                part = substr(part, RSTART + RLENGTH)
            }
            part = out part
        }
        line = line (i > 1 ? "\"" : "") part
    }
    print line
}
