# What the files of crates/ declare, a line 'CRATE NAME' each: in the code functions, types, their
# cases and fields; in specs/ and proofs/ definitions, records, their fields, lemmas; parts of
# must-fail/; and every file and folder by its name.
function says(name) { print crate, name }
FNR == 1 {
    split(FILENAME, step, "/")
    crate = step[2]
    n = split(FILENAME, step, "/")
    for (i = 2; i <= n; i++) { name = step[i]; says(name); sub(/\.[a-z]*$/, "", name); says(name) }
}
FILENAME ~ /\.edit$/ {
    if (/^part: /) says($2)
    next
}
/^ *(\/\/|--|use |pub use |ghost )/ { next }
{
    line = $0
    sub(/^ */, "", line)
    while (sub(/^(pub|abbrev|unfoldable|record|data|fn|struct|enum|const|mod) +/, "", line)) { }
    if (match(line, /^[A-Za-z_][A-Za-z0-9_'-]*/)) {
        name = substr(line, 1, RLENGTH)
        rest = substr(line, RLENGTH + 1)
        # A declaration goes on with a type, with arguments, with a body, or ends there.
        if (FILENAME ~ /\.rt$/ && ($0 ~ /^ *(pub )?(fn|struct|enum|const|mod) / || rest ~ /^(: |,$|\(.*\),$)/)) says(name)
        if (FILENAME ~ /\.antt$/ && ($0 ~ /(record|data) / || rest ~ /^ *( :|\(|$)/)) says(name)
    }
}
