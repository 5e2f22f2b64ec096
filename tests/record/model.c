/* A second opinion on `record` and `listen`, written from document 01 and docs/LEAD.md sentence
   by sentence: it holds the whole line, lists its contacts, and judges each over all of its
   offsets.

     model record PLACE S S* [PLACE S S* ..]    the trace of the lead on standard input, and what
                                                `record` says on standard error; pairs by their
                                                places
     model listen S S*                          the lines of the line on standard input
     model repeat COUNT DM HEX                  so many frames at this odometer, each with these
                                                twelve bytes of line
     model make SEED FRAMES S S*                a lead by chance: balises with some flipped bits,
                                                markers, noise, odometers that fall, jump and stand
                                                still */
#include <stdint.h>
#include <stdio.h>
#include <stdlib.h>
#include <string.h>

#define MOST_BITS 16777216
#define MOST_DM 4000000000u

/* The documents' words for a number, as lines of our own have them. */
static const char *in_words(int number)
{
    switch (number) {
    case 5: return "above 16,777,216 bits";
    case 7: return "places differ";
    case 8: return "contact neither telegram nor marker";
    case 9: return "contact cut by the end of the record";
    case 17: return "odometer below the last accepted one";
    case 18: return "odometer above 4,000,000,000";
    }
    return "";
}

static uint8_t *input;
static size_t bytes;

static void read_input(void)
{
    size_t room = 1 << 20, got;
    input = malloc(room);
    while ((got = fread(input + bytes, 1, room - bytes, stdin)) > 0) {
        bytes += got;
        if (bytes == room)
            input = realloc(input, room *= 2);
    }
}

/* ---- The codes ----
   "Bits 8, 4, 2, 1, 0 are checks, the rest carry the figure, highest first." */

static int is_check(int i)
{
    return i == 0 || i == 1 || i == 2 || i == 4 || i == 8;
}

/* "Check 2^k makes the count of ones even over the positions whose number has 2^k in it; check 0
   makes the whole word even. The sent code M is H with bits 3 and 4 exchanged, and in the long
   one also 11 and 12." */
static unsigned word_of(int size, unsigned figure)
{
    int h[16] = {0}, i, c, sum;
    unsigned sent = 0;
    for (i = 0; i < size; i++)
        if (!is_check(i)) {
            h[i] = figure & 1;
            figure >>= 1;
        }
    for (c = 1; c < size; c *= 2) {
        for (sum = 0, i = 0; i < size; i++)
            if (i & c)
                sum += h[i];
        h[c] = sum % 2;
    }
    for (sum = 0, i = 0; i < size; i++)
        sum += h[i];
    h[0] = sum % 2;
    for (i = 0; i < size; i++) {
        int from = i == 3 ? 4 : i == 4 ? 3 : i == 11 ? 12 : i == 12 ? 11 : i;
        sent |= (unsigned)h[from] << i;
    }
    return sent;
}

static int short_figure[256], long_figure[65536];

static void make_codes(void)
{
    memset(short_figure, -1, sizeof short_figure);
    memset(long_figure, -1, sizeof long_figure);
    for (unsigned f = 0; f < 16; f++)
        short_figure[word_of(8, f)] = (int)f;
    for (unsigned f = 0; f < 2048; f++)
        long_figure[word_of(16, f)] = (int)f;
}

/* Whether three words are a telegram's; its figures as text. */
static int read_words(unsigned x, unsigned y, unsigned z, char *text)
{
    int a = short_figure[x], b = short_figure[y], c = short_figure[z], n = long_figure[y * 256 + z];
    if (a < 0 || a == 15)
        return 0;
    if (a == 12) {
        if (n < 0)
            return 0;
        sprintf(text, "12 %d", n);
        return 1;
    }
    if (b < 0 || b == 15 || c < 0 || c == 15)
        return 0;
    sprintf(text, "%d %d %d", a, b, c);
    return 1;
}

/* ---- The line and its contacts ---- */

static uint8_t *line; /* a byte for each bit */
static uint64_t line_bits;

static void put_bits(const uint8_t *from, size_t count)
{
    for (size_t i = 0; i < count * 8; i++)
        line[line_bits++] = from[i / 8] >> (7 - i % 8) & 1;
}

struct contact {
    uint64_t start, length, closing; /* closing: the bit that closes it */
    int is_closed;
};

static struct contact *contacts;
static size_t contact_count;

static void hear(void)
{
    size_t room = 16;
    int inside = 0;
    contacts = malloc(room * sizeof *contacts);
    for (uint64_t i = 0; i < line_bits; i++) {
        int zeroes = 0;
        for (uint64_t k = 0; k < 16 && k <= i; k++)
            zeroes += line[i - k] == 0;
        if (!inside && zeroes >= 8) {
            inside = 1;
            if (contact_count == room)
                contacts = realloc(contacts, (room *= 2) * sizeof *contacts);
            contacts[contact_count].start = i;
            contacts[contact_count].is_closed = 0;
        } else if (inside && zeroes <= 4) {
            inside = 0;
            contacts[contact_count].length = i - contacts[contact_count].start;
            contacts[contact_count].closing = i;
            contacts[contact_count++].is_closed = 1;
        }
    }
    if (inside) {
        contacts[contact_count].length = line_bits - contacts[contact_count].start;
        contact_count++;
    }
}

static unsigned byte_at(uint64_t p)
{
    unsigned v = 0;
    for (int i = 0; i < 8; i++)
        v = v * 2 + line[p + (uint64_t)i];
    return v;
}

/* "(a) two or more places, all with the same X, Y and Z: read; (b) two places that differ: 7;
   (c) at least 64 bits long and made of zeroes followed by at most 11 ones: marker; (d)
   otherwise 8." 0 read, 1 marker, else the number; the words and the figures of the first place,
   and how many there are. */
static int judge(struct contact c, unsigned s, unsigned t, unsigned words[3], char *text, uint64_t *first, uint64_t *count)
{
    int differ = 0;
    *count = 0;
    if (c.length > MOST_BITS)
        return 5;
    for (uint64_t p = c.start; p + 40 <= c.start + c.length; p++) {
        char here[32];
        unsigned a = byte_at(p), b = byte_at(p + 32);
        if (!((a == s && b == t) || (a == t && b == s)))
            continue;
        unsigned x = byte_at(p + 8), y = byte_at(p + 16), z = byte_at(p + 24);
        if (!read_words(x, y, z, here))
            continue;
        if (*count == 0) {
            words[0] = x, words[1] = y, words[2] = z;
            *first = p;
            strcpy(text, here);
        }
        differ |= x != words[0] || y != words[1] || z != words[2];
        ++*count;
    }
    if (*count >= 2)
        return differ ? 7 : 0;
    uint64_t zeroes = 0, ones = 0;
    while (zeroes < c.length && line[c.start + zeroes] == 0)
        zeroes++;
    while (zeroes + ones < c.length && line[c.start + zeroes + ones] == 1)
        ones++;
    return c.length >= 64 && zeroes + ones == c.length && ones <= 11 ? 1 : 8;
}

/* ---- listen ---- */

static void listen(unsigned s, unsigned t)
{
    line = malloc(bytes * 8 + 1);
    put_bits(input, bytes);
    hear();
    for (size_t i = 0; i < contact_count; i++) {
        unsigned words[3];
        char text[32];
        uint64_t first = 0, count;
        struct contact c = contacts[i];
        if (!c.is_closed) {
            printf("refused 9: %s\n", in_words(9));
            continue;
        }
        printf("%llu %llu ", (unsigned long long)c.start, (unsigned long long)c.length);
        int j = judge(c, s, t, words, text, &first, &count);
        if (j == 0)
            printf("telegram %s places %llu from %llu\n", text, (unsigned long long)count, (unsigned long long)first);
        else if (j == 1)
            printf("marker\n");
        else
            printf("refused %d: %s\n", j, in_words(j));
    }
}

/* ---- record ---- */

static int versions;
static struct {
    uint64_t place;
    unsigned s, t;
} version[32];

static uint32_t *in_force; /* the odometer of each frame */
static uint32_t last;
static uint64_t written, kinds[4];

static void put_record(uint32_t dm, unsigned kind, const unsigned words[3])
{
    uint8_t r[8] = {(uint8_t)(dm >> 24), (uint8_t)(dm >> 16), (uint8_t)(dm >> 8), (uint8_t)dm, (uint8_t)kind, (uint8_t)words[0], (uint8_t)words[1], (uint8_t)words[2]};
    fwrite(r, 1, 8, stdout);
    last = dm;
    written++;
    kinds[kind]++;
}

static const unsigned none[3];

static void put_contact(struct contact c)
{
    uint32_t dm = in_force[c.start / 96];
    unsigned words[3], s = 0, t = 0;
    char text[32];
    uint64_t first, count;
    for (int i = 0; i < versions; i++)
        if (version[i].place <= dm)
            s = version[i].s, t = version[i].t;
    int j = c.is_closed ? judge(c, s, t, words, text, &first, &count) : 9;
    put_record(dm, j == 0 ? 0 : j == 1 ? 1 : 2, j == 0 ? words : none);
}

static void trace(void)
{
    uint64_t frames = bytes / 16, refused = 0;
    uint32_t accepted = 0;
    size_t next = 0;
    line = malloc(frames * 96 + 1);
    in_force = malloc(frames * sizeof *in_force + 4);
    for (uint64_t k = 0; k < frames; k++) {
        const uint8_t *f = input + 16 * k;
        uint32_t given = ((uint32_t)f[0] << 24) + ((uint32_t)f[1] << 16) + ((uint32_t)f[2] << 8) + f[3];
        int number = given > MOST_DM ? 18 : given < accepted ? 17 : 0;
        if (number != 0 && refused++ == 0)
            fprintf(stderr, "record: frame %llu refused %d: %s\n", (unsigned long long)k + 1, number, in_words(number));
        if (number == 0)
            accepted = given;
        in_force[k] = accepted;
        put_bits(f + 4, 12);
    }
    hear();
    for (uint64_t k = 0; k < frames; k++) {
        while (next < contact_count && contacts[next].is_closed && contacts[next].closing / 96 == k)
            put_contact(contacts[next++]);
        int is_open = next < contact_count && contacts[next].start / 96 <= k;
        if (!is_open && (written == 0 || in_force[k] >= (uint64_t)last + 10))
            put_record(in_force[k], 3, none);
    }
    if (next < contact_count)
        put_contact(contacts[next]);
    if (frames > 0 && accepted > last)
        put_record(accepted, 3, none);
    if (refused > 0)
        fprintf(stderr, "record: frames refused %llu\n", (unsigned long long)refused);
    if (bytes % 16 > 0)
        fprintf(stderr, "record: bytes after the last frame %llu\n", (unsigned long long)(bytes % 16));
    fprintf(stderr, "record: frames %llu, contacts %llu, read %llu, markers %llu, unreadable %llu, records %llu\n", (unsigned long long)frames,
        (unsigned long long)(kinds[0] + kinds[1] + kinds[2]), (unsigned long long)kinds[0], (unsigned long long)kinds[1], (unsigned long long)kinds[2], (unsigned long long)written);
}

/* ---- make ---- */

static uint64_t state;

static uint32_t below(uint32_t n)
{
    uint64_t z = state += 0x9E3779B97F4A7C15;
    z = (z ^ z >> 30) * 0xBF58476D1CE4E5B9;
    z = (z ^ z >> 27) * 0x94D049BB133111EB;
    z ^= z >> 31;
    return (uint32_t)((z >> 32) * n >> 32);
}

static uint64_t most_bits;

static void bit(unsigned b)
{
    if (line_bits < most_bits)
        line[line_bits++] = (uint8_t)b;
}

static void balise(unsigned s, unsigned t)
{
    uint32_t flips = below(3) == 0 ? below(30) : 0, many = 1 + below(12);
    unsigned words[3] = {word_of(8, below(16)), word_of(8, below(16)), word_of(8, below(16))};
    if (below(4) == 0) {
        unsigned n = word_of(16, below(2048));
        words[0] = word_of(8, 12), words[1] = n >> 8, words[2] = n & 255;
    }
    for (uint32_t k = 0; k <= many; k++) {
        unsigned sent[4] = {k % 2 ? t : s, words[0], words[1], words[2]};
        if (k > 0 && below(40) == 0)
            words[2] ^= 255;
        for (int j = 0; j < (k == many ? 1 : 4); j++)
            for (int i = 7; i >= 0; i--)
                bit((sent[j] >> i & 1) ^ (flips > 0 && below(1000) < flips));
    }
}

static void make(uint64_t frames, unsigned s, unsigned t)
{
    uint64_t dm = below(3) == 0 ? 0 : below(100000), i;
    uint32_t wild = below(3) == 0 ? 20 : 0, pace = below(4) == 0 ? 1 : 12;
    most_bits = frames * 96;
    line = malloc(most_bits + 1);
    while (line_bits < most_bits) {
        uint32_t n = below(4) == 0 ? below(400) : below(40), what = below(8);
        for (i = 0; i < n; i++)
            bit(1);
        n = what == 0 ? 30 + below(60) : what == 1 ? below(300) : 0;
        for (i = 0; i < n; i++)
            bit(what == 0 ? 0 : below(2));
        if (what > 1)
            balise(s, t);
    }
    for (uint64_t k = 0; k < frames; k++) {
        uint64_t given = dm;
        if (below(1000) < wild)
            given = below(2) ? dm / 2 : below(2) ? MOST_DM + 1 + below(100) : dm + below(100000);
        uint8_t f[16] = {(uint8_t)(given >> 24), (uint8_t)(given >> 16), (uint8_t)(given >> 8), (uint8_t)given};
        for (i = 0; i < 96; i++)
            f[4 + i / 8] = (uint8_t)(f[4 + i / 8] << 1 | line[96 * k + i]);
        fwrite(f, 1, 16, stdout);
        dm += below(pace);
    }
    for (i = below(4) == 0 ? below(16) : 0; i > 0; i--)
        fwrite("x", 1, 1, stdout);
}

static void repeat(uint64_t count, uint32_t dm, const char *hex)
{
    uint8_t f[16] = {(uint8_t)(dm >> 24), (uint8_t)(dm >> 16), (uint8_t)(dm >> 8), (uint8_t)dm};
    for (int i = 0; i < 12; i++) {
        char two[3] = {hex[2 * i], hex[2 * i + 1], 0};
        f[4 + i] = (uint8_t)strtoul(two, NULL, 16);
    }
    while (count-- > 0)
        fwrite(f, 1, 16, stdout);
}

int main(int argc, char **argv)
{
    make_codes();
    if (argc == 4 && strcmp(argv[1], "listen") == 0) {
        read_input();
        listen((unsigned)strtoul(argv[2], NULL, 16), (unsigned)strtoul(argv[3], NULL, 16));
    } else if (argc >= 5 && strcmp(argv[1], "record") == 0) {
        for (int i = 2; i + 2 < argc && versions < 32; i += 3, versions++) {
            version[versions].place = strtoul(argv[i], NULL, 10);
            version[versions].s = (unsigned)strtoul(argv[i + 1], NULL, 16);
            version[versions].t = (unsigned)strtoul(argv[i + 2], NULL, 16);
        }
        read_input();
        trace();
    } else if (argc == 5 && strcmp(argv[1], "repeat") == 0 && strlen(argv[4]) == 24) {
        repeat(strtoul(argv[2], NULL, 10), (uint32_t)strtoul(argv[3], NULL, 10), argv[4]);
    } else if (argc == 6 && strcmp(argv[1], "make") == 0) {
        state = strtoul(argv[2], NULL, 10);
        make(strtoul(argv[3], NULL, 10), (unsigned)strtoul(argv[4], NULL, 16), (unsigned)strtoul(argv[5], NULL, 16));
    } else {
        return 2;
    }
    return 0;
}
