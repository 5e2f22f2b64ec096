# Makes the man page: the lines of programs.txt take the place of the line @PROGRAMS@ of
# docs/atc2.1.
#   awk -f docs/man.awk programs.txt docs/atc2.1
function roff(text) { gsub(/\\/, "\\e", text); gsub(/-/, "\\-", text); gsub(/'/, "\\(aq", text); return text }
FNR == 1 { file++ }
file == 1 {
    if (/^#/ || /^test / || !NF) next
    count = split($0, field, " *[|] *")
    rows = rows ".TP\n.B atc2 " field[1] (field[2] == "" ? "" : " " roff(field[2])) "\n" roff(field[3]) ".\n"
    sub(/ *$/, "", field[4])
    if (field[4] != "") rows = rows "Example: atc2 " field[1] " " roff(field[4]) "\n"
    next
}
/^@PROGRAMS@$/ { printf "%s", rows; next }
{ print }
