# What a page of scope shows, in the words of model.awk: each heading's start and length, the bits
# of the waveform under it, and each telegram's boxes.
/^<h2>/ { sub(/^<h2>/, ""); print $1, $2 }
/^<svg class='h'>.*<path class='w' d='M0 28V/ {
    sub(/.*class='w' d='M0 28/, ""); sub(/'.*/, "")
    gsub(/V28h4/, "0"); gsub(/V16h4/, "1")
    print
}
/^<use href='#t[12]' x='/ {
    n = split($0, part, "'")
    gsub(/[^0-9]/, "", part[9])
    print substr(part[2], 3), part[4], part[9]
    if (n != 9 || part[4] != part[8]) print "the boxes and their number stand at two places"
}
