# Checks a page as XML: every tag is well formed, its values quoted, all tags balanced; no bare `&`
# or `>`; no value of `id` stands twice, and every `href` names one. Nothing is loaded: no script,
# link, img, iframe, object, and no `url(`, `src` or `@import`. Writes what is wrong, a line each,
# and nothing where all is well.
BEGIN { RS = "<"; depth = 0 }
function wrong(what) { printf "tag %d: %s: %s\n", NR - 1, what, substr($0, 1, 60) }
NR == 1 { if ($0 != "") wrong("text before the page"); next }
{
    end = index($0, ">")
    if (end == 0) { wrong("no end of a tag"); next }
    tag = substr($0, 1, end - 1); text = substr($0, end + 1)
    if (text ~ /[>&"]/ || text ~ /url\(|@import/) wrong("text")
    if (NR == 2) { if (tag != "!DOCTYPE html") wrong("no document type"); next }
    if (tag ~ /^\//) {
        name = substr(tag, 2)
        if (depth == 0 || stack[depth] != name) wrong("closes what is not open")
        if (depth > 0) depth--
        if (depth == 0) after = 1
        next
    }
    if (after) wrong("after the end")
    if (tag !~ /^[a-z][a-z0-9]*( [a-zA-Z-]+='[^'<>&]*')*\/?$/) { wrong("tag"); next }
    match(tag, /^[a-z0-9]+/); name = substr(tag, 1, RLENGTH)
    if (name ~ /^(script|link|img|iframe|object|embed|base|form|input)$/ || tag ~ / (src|on[a-z]+|action)=/) wrong("loads or does something")
    if (match(tag, / id='[^']*'/)) { id = substr(tag, RSTART + 5, RLENGTH - 6); if (id in ids) wrong("id twice"); ids[id] = 1 }
    if (match(tag, / href='[^']*'/)) { to = substr(tag, RSTART + 7, RLENGTH - 8); hrefs[to] = 1 }
    if (tag !~ /\/$/) stack[++depth] = name
}
END {
    if (depth) printf "%d tags are open at the end\n", depth
    for (h in hrefs) if (substr(h, 1, 1) != "#" || !(substr(h, 2) in ids)) printf "no such id: %s\n", h
}
