# Holds the names of docs/landings/ against the tree: first the list of declared.awk ('CRATE NAME'),
# then docs/landings/README.md with its table, then the notes. A name between backquotes (`NAME`,
# `CRATE::NAME`) is declared in a crate that its note names, or stands at the left of the table.
# What stands there is in a note, and what stands at its right is declared. OK and BAD lines come
# out.
function held(of, name) { print "OK " of " " name }
function bad(of, name) { print "BAD docs/landings/" of " names " name ", which is not there today: put it into the table of docs/landings/README.md" }
function is_name(text) { return text ~ /^[A-Za-z][A-Za-z0-9_-]*$/ }
function is_path(text) { return text ~ /^[a-z_]+::[A-Za-z_][A-Za-z0-9_]*$/ }
# The names of a note that was read to its end.
function judge(    i, c, cut, found) {
    for (i = 1; i <= names; i++) {
        found = 0
        if (is_path(name[i])) { split(name[i], cut, "::"); found = (cut[1], cut[2]) in declared }
        else for (c in crates) if (found = (c, name[i]) in declared) break
        if (found || name[i] in gone) held(note, name[i])
        else bad(note, name[i])
        delete unmet[name[i]]
    }
    names = 0
    split("", crates)
    split("", met)
}
FILENAME ~ /declared$/ { declared[$1, $2] = 1; crate[$1] = 1; somewhere[$2] = 1; next }
FNR == 1 { judge(); text = ""; note = FILENAME; sub(/.*\//, "", note) }
note == "README.md" {
    if (!/^\| `/) next
    split($0, cell, "|")
    n = split(cell[2], part, "`")
    for (i = 2; i <= n; i += 2) gone[part[i]] = unmet[part[i]] = 1
    n = split(cell[3], part, "`")
    for (i = 2; i <= n; i += 2) {
        split(part[i], cut, "::")
        if (is_path(part[i]) ? (cut[1], cut[2]) in declared : part[i] in somewhere) held(note, part[i])
        else bad(note, part[i])
    }
    next
}
{
    # What stands between backquotes may go over the end of a line.
    text = text " " $0
    if (gsub(/`/, "`", text) % 2) next
    n = split(text, part, "`")
    text = ""
    for (i = 2; i <= n; i += 2) {
        split(part[i], cut, "::")
        if (cut[1] in crate) crates[cut[1]] = 1
        if ((is_name(part[i]) || is_path(part[i])) && !(part[i] in met)) { met[part[i]] = 1; name[++names] = part[i] }
    }
    while (match($0, /crates\/[a-z_]+/)) { crates[substr($0, RSTART + 7, RLENGTH - 7)] = 1; $0 = substr($0, RSTART + RLENGTH) }
}
END {
    judge()
    for (old in unmet) print "BAD docs/landings/README.md has a row for " old ", which no note names"
}
