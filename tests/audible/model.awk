# What can never be heard with the sync words s and t (decimal), worked out from document 01's
# sentences: a line for each telegram whose line has sixteen bits in a row with four zeroes or
# fewer.
function bit(w, i) { return int(w / 2 ^ i) % 2 }
function flip(w, i) { return bit(w, i) ? w - 2 ^ i : w + 2 ^ i }
# The plain word of n bits that carries x: figure bits in the positions that are no checks, then
# each check made even, the whole last; then the exchanged bits.
function sent(n, x,    h, i, k, c, p, a) {
    h = 0; k = 0
    for (i = 0; i < n; i++) if (i != 0 && i != 1 && i != 2 && i != 4 && i != 8) { if (bit(x, k)) h += 2 ^ i; k++ }
    for (c = 8; c >= 1; c /= 2) { if (c >= n) continue; p = 0; for (i = 0; i < n; i++) if (int(i / c) % 2) p += bit(h, i); if (p % 2) h = flip(h, c) }
    p = 0; for (i = 0; i < n; i++) p += bit(h, i)
    if (p % 2) h = flip(h, 0)
    if (bit(h, 3) != bit(h, 4)) h = flip(flip(h, 3), 4)
    if (n == 16 && bit(h, 11) != bit(h, 12)) h = flip(flip(h, 11), 12)
    return h
}
function broken(x, y, z,    b, i, k, zeroes) {
    b[0] = s; b[1] = b[5] = x; b[2] = b[6] = y; b[3] = b[7] = z; b[4] = t
    for (i = 0; i < 64; i++) one[i] = bit(b[int(i / 8)], 7 - i % 8)
    zeroes = 0
    for (i = 0; i < 16; i++) zeroes += 1 - one[i]
    for (i = 0; i < 64; i++) { if (zeroes <= 4) return 1; zeroes += one[i] - one[(i + 16) % 64] }
    return 0
}
BEGIN {
    for (x = 0; x < 15; x++) word[x] = sent(8, x)
    for (x = 0; x < 15; x++) { if (x == 12) continue
        for (y = 0; y < 15; y++) for (z = 0; z < 15; z++) if (broken(word[x], word[y], word[z])) { print x, y, z; telegrams++ } }
    for (m = 0; m < 2048; m++) { w = sent(16, m); if (broken(word[12], int(w / 256), w % 256)) { print 12, m; numbers++ } }
    printf "%d telegrams and %d numbers are never read with this pair\n", telegrams, numbers
}
