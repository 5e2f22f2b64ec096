# A lead with noise by the house's sentences: frames in hex on standard input, one a line (the last
# may be shorter); x begins as the seed.
function value(c) { return index("0123456789abcdef", c) - 1 }
BEGIN { x = seed }
length($0) == 32 {
    out = substr($0, 1, 8)
    for (i = 9; i <= 32; i++) {
        v = value(substr($0, i, 1)); r = 0
        for (b = 8; b >= 1; b /= 2) {
            x = (48271 * x) % 2147483647
            bit = int(v / b) % 2
            if (x % 1000000 < n) bit = 1 - bit
            r += bit * b
        }
        out = out substr("0123456789abcdef", r + 1, 1)
    }
    print out
    next
}
{ print }
