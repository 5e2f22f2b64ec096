# awk -v listed="FILE.." -f portable.awk MODULE.ll: what in a module could mean something else where
# a pointer has 32 bits, or on another processor, once narrow.awk has given each place for a pointer
# its eight bytes. It names each such line, and ends with 1 if there is one. In a module without them
# a pointer is only lent, loaded, stored and stepped by bytes, put into and taken out of values of
# several parts, and taken from another for how far they are apart; numbers are of a width that is written with them, and every function that is called
# by name is defined in the module or listed. usize stays 64 bits.
BEGIN {
    n = split(listed, file, " ")
    for (i = 1; i <= n; i++) while ((getline line <file[i]) > 0) known[line] = 1
}

function wrong(why) { printf "line %d: %s: %s\n", NR, why, substr($0, 1, 200); bad = 1 }

# Constants are bytes that nobody writes.
/^@/ {
    if ($0 !~ /^@[^=]+ = (private|internal) (unnamed_addr )?constant \[[0-9]+ x i8\] (c"|zeroinitializer)/) wrong("a global that is not constant bytes")
    next
}
/^(;|!|source_filename = |target |attributes |}|$)/ { next }
/^module asm/ { wrong("assembly"); next }
/^declare / {
    name = $0
    sub(/^[^@]*@/, "", name)
    sub(/\(.*/, "", name)
    if (!(name in known)) wrong("a function that is not listed")
    next
}
/^define / { split("", slot); split("", place) }

# What lies within quotes is a name.
{
    text = $0
    gsub(/"[^"]*"/, "NAME", text)
    # A value of several parts, as these lines have it, which narrow.awk turns: no part has parts.
    if (text !~ /\{[^{}]*\{/ && text ~ /^define | = (call|load|extractvalue|insertvalue) |^ +(ret|store) /) gsub(/\{ [^][<>(){}]* \}/, "PARTS", text)
}
# How far two places are apart is the same number on each processor; where a place lies is not.
text ~ /^ +%[^ ]+ = ptrtoaddr ptr [^ ]+ to i64$/ { place[$1] = 1; next }
{
    n = split(text, word, /[ ,()]+/)
    for (i = 1; i <= n; i++) if (word[i] in place && !(text ~ /^ +%[^ ]+ = sub i64 [^ ]+, [^ ]+$/ && word[n] in place && word[n - 1] in place)) wrong("a pointer as a number")
}
text ~ /(ptrtoint|inttoptr|ptrtoaddr|addrspacecast|addrspace)/ { wrong("a pointer as a number") }
text ~ /icmp [a-z ]*ptr/ && text !~ /icmp (eq|ne) ptr [^ ]+, null$/ { wrong("two pointers compared") }
text ~ /(^| |<|\[|\()(half|bfloat|float|double|fp128|x86_fp80|ppc_fp128|x86_mmx|x86_amx)( |,|\*|>|\]|\)|$)/ { wrong("a float") }
text ~ /[ (]asm / { wrong("assembly") }
text ~ /( = |^ +)(cmpxchg|atomicrmw|fence) |(load|store) (atomic|volatile)/ { wrong("an atomic") }
text ~ / (va_arg|invoke|callbr|indirectbr|landingpad|thread_local) / { wrong("what no module has") }
text ~ /(^| )call [^@]*%[A-Za-z0-9._]+\(/ { wrong("a call through a pointer") }
text ~ /[{[<][^]}>(]*ptr[^]}>(]*[]}>]/ { wrong("a pointer in a larger type") }
text ~ /getelementptr / && text !~ /getelementptr (inbounds |nuw |nusw )*i8, ptr / { wrong("a step that is not of bytes") }

# A place for a pointer is filled by a pointer, and read as one.
/ = alloca / && text !~ / = alloca (ptr|i[0-9]+|\[[0-9]+ x i8\]), align [0-9]+$/ { wrong("a place of another kind") }
/ = alloca ptr/ { slot[$1] = 1; next }
text ~ /= load i|^ +store i/ {
    into = text
    sub(/^.*, ptr /, "", into)
    sub(/,.*$/, "", into)
    if (into in slot) wrong("a place for a pointer used otherwise")
}
END { exit bad }
