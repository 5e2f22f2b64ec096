# Commands in an order that the seed fixes, a line each. Variables: seed, count; records and place,
# how many records there are and the last place.
function any(n) { s = (s * 16807) % 2147483647; return s % n }
BEGIN {
    s = seed
    for (i = 0; i < count; i++) {
        kind = any(100)
        if (kind < 35) print "f " any(40)
        else if (kind < 65) print "b " any(40)
        else if (kind < 75) print "f"
        else if (kind < 85) print "b"
        else if (kind < 88) print "b " 200 + any(100)
        else if (kind < 90) print "f " 200 + any(100)
        else if (kind < 94) print "p " any(place + 100)
        else print "g " 1 + any(records + 20)
    }
}
