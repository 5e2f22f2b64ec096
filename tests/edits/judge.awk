# Judges the parts of one group by the log of its check (logs.py). Variables: crate (its name), folder
# (the crate's), group (the .edit file), label (the group's name), told (the log). A line for each part:
# '+ ..' if the function that answers for it is refused because a fact fails, else '- ..' with what
# is wrong; then one for the group: whether the functions that answer for its parts are all
# different, and none is one in which another part stands.

# The text of a file, or nothing.
function whole(file,    text, line, k) {
    text = ""
    while ((k = (getline line <file)) > 0) text = text line "\n"
    if (k == 0) close(file)
    return text
}

# The function of a source in which the text stands, as the folder of its proof; '' if it stands in
# none (a constant), '?' if it is not there.
function stands_in(file, old,    text, at, lines, n, i, end, line, name, module) {
    if (!(file in sources)) sources[file] = whole(folder "/" file)
    text = sources[file]
    at = index(text, old)
    if (!at) return "?"
    n = split(text, lines, "\n")
    end = 0
    name = ""
    for (i = 1; i <= n; i++) {
        line = lines[i]
        if (line ~ /^[ ]*(pub )?(extern "C" )?fn [A-Za-z0-9_]+/) {
            name = line
            sub(/^.*fn /, "", name)
            sub(/[^A-Za-z0-9_].*/, "", name)
        }
        end += length(line) + 1
        if (end >= at) break
        if (line == "}") name = ""
    }
    if (name == "") return ""
    module = file
    sub(/^src\//, "", module)
    sub(/\.rt$/, "", module)
    return (module == "lib" || module == "main") ? name : module "/" name
}

# What the log says of a function or of a file of proofs: 'fact', or why it is none.
function verdict(answer,    path, file, i, line, own, fact, form, unnamed, open) {
    path = answer
    gsub(/\//, "::", path)
    path = "fn " crate "::" path ": "
    file = "^(\\./)?proofs/" answer "(/(Proof|Answers|Invariants))?\\.antt:[0-9]+:[0-9]+: error: "
    own = fact = open = 0
    form = unnamed = ""
    for (i = 1; i <= logged; i++) {
        line = logs[i]
        # The goals that stay open are told right before the line of their function.
        if (line ~ /^note: src\/[^ ]*:[0-9]+:[0-9]+: it is not proved that /) open = 1
        else if (line ~ /^fn /) {
            if (index(line, path) == 1) {
                own = 1
                if (line == path "proved") return "is still proved: the part slipped through"
                if (open || line ~ /; `search` (did not prove|gave up)/) { if (fact < 1) fact = 1 }
            }
            open = 0
        } else if (line ~ file) {
            own = 1
            sub(/^.*:[0-9]+:[0-9]+: error: /, "", line)
            if (line ~ /was not admitted|were not checked|was not checked/) continue
            if (is_unnamed(line)) { if (unnamed == "") unnamed = line }
            else if (is_fact(line)) fact = 2
            else if (form == "") form = line
        }
    }
    # Where a proof names what is no more, a goal may stay open for that alone.
    if (unnamed != "" && fact < 2) return "is refused for its form alone: " substr(unnamed, 1, 160)
    if (fact) return "fact"
    if (form != "") return "is refused for its form alone: " substr(form, 1, 160)
    if (own) return "is refused only since something that it cites or calls is"
    return "is not in the log"
}

# Whether an error says that a fact fails: what is found is not what is claimed, a goal stays open,
# or an inequality does not follow.
function is_fact(said) {
    return said ~ /the two (types|sides)|expected type|one side reads|no proof of|as the last argument|does not follow from what it read/
}

# Whether an error says that a proof names what is no longer there.
function is_unnamed(said) {
    return said ~ /has no (field )?`|that can be named from here|is not in scope/
}

BEGIN {
    logged = 0
    there = 0
    while ((getline line <told) > 0) { logs[++logged] = line; if (line ~ /^(logic=not-proved|only=)/) there = 1 }
    parts = 0
    file = ""
    while ((getline line <group) > 0) {
        if (line ~ /^part: /) { parts++; name[parts] = substr(line, 7); file = ""; pairs[parts] = 0 }
        else if (line ~ /^(file|old|new|of|says|refused):/ && parts == 0) { print "- " crate "/" label ": a line stands before the first part: " line; parts = -1; break }
        else if (line ~ /^of: /) of[parts] = substr(line, 5)
        else if (line ~ /^says: /) says[parts] = substr(line, 7)
        else if (line ~ /^refused: /) refused[parts] = substr(line, 10)
        else if (line ~ /^file: /) file = substr(line, 7)
        else if (line ~ /^old: /) {
            pairs[parts]++
            if (file ~ /^src\//) {
                where = stands_in(file, substr(line, 6))
                if (where == "") constants[parts] = 1
                else if (where != "?" && !((parts, where) in seen)) { seen[parts, where] = 1; stands[parts] = stands[parts] " " where; functions[parts]++ }
            } else definitions[parts] = 1
        }
    }
    if (parts == 0) print "- " crate "/" label ": no part in it"
    alike = ""
    for (p = 1; p <= parts; p++) {
        at = crate "/" label " " name[p]
        if (of[p] == "" || says[p] == "" || pairs[p] == 0) { print "- " at ": it lacks a line of:, says:, or a pair old: and new:"; continue }
        answer = refused[p]
        if (answer == "" && functions[p] == 1 && !constants[p] && !definitions[p]) answer = substr(stands[p], 2)
        if (answer == "") { print "- " at ": it does not stand in one function alone, and no line 'refused: FUNCTION' says which answers"; continue }
        answers[p] = answer
        if (!there) { print "- " at ": there is no log of a check that came to its end"; continue }
        what = verdict(answer)
        if (what == "fact") print "+ " at ": " answer " is refused, a fact fails"
        else print "- " at ": " answer " " what
    }
    for (p = 1; p <= parts; p++) for (q = 1; q <= parts; q++) if (p != q && answers[p] != "") {
        if (answers[p] == answers[q] && p < q) alike = alike "; " name[p] " and " name[q] " are answered by " answers[p]
        else if (index(stands[q] " ", " " answers[p] " ") && answers[p] != answers[q]) alike = alike "; " name[q] " stands in " answers[p] ", which answers for " name[p]
    }
    if (parts > 0) print (alike == "" ? "+ " : "- ") crate "/" label ": " (alike != "" ? substr(alike, 3) : parts == 1 ? "one part" : parts " parts, answered by different functions")
}
