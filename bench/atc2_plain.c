/* The checker's jobs in plain C, from a bit to a line of text; atc2_plain.h says what each is. */
#include "atc2_plain.h"

#include <string.h>

/* ---- The two codes ----
   Bits 8, 4, 2, 1, 0 of the plain word are checks. A short word is a long one whose high byte is
   0, in every respect. */

static bool is_odd(uint32_t bits)
{
    return __builtin_popcount(bits) % 2 != 0;
}

/* Bits 3 and 4, and 11 and 12, exchanged: from the sent word to the plain one, and back. */
static uint32_t exchanged(uint32_t word)
{
    uint32_t unlike = (word ^ word >> 1) & 0x0808;
    return word ^ unlike ^ unlike << 1;
}

/* "Check 2^k makes the count of ones even over the positions whose number has 2^k in it": these
   positions, as a mask that the compiler makes of this sentence. */
#define AT(k, p) ((uint32_t)(((p) & (k)) != 0) << (p))
#define FOUR(k, p) (AT(k, p) | AT(k, p + 1) | AT(k, p + 2) | AT(k, p + 3))
#define OVER(k) (FOUR(k, 0) | FOUR(k, 4) | FOUR(k, 8) | FOUR(k, 12))

static int32_t read_word(uint32_t sent)
{
    uint32_t h = exchanged(sent);
    if (is_odd(h & OVER(8)) || is_odd(h & OVER(4)) || is_odd(h & OVER(2)) || is_odd(h & OVER(1)) || is_odd(h))
        return -1;
    return (int32_t)(h >> 9 << 4 | (h >> 5 & 7) << 1 | (h >> 3 & 1));
}

static int32_t write_word(uint32_t figure)
{
    uint32_t h = figure >> 4 << 9 | (figure >> 1 & 7) << 5 | (figure & 1) << 3;
    h |= (uint32_t)is_odd(h & OVER(8)) << 8;
    h |= (uint32_t)is_odd(h & OVER(4)) << 4;
    h |= (uint32_t)is_odd(h & OVER(2)) << 2;
    h |= (uint32_t)is_odd(h & OVER(1)) << 1;
    h |= (uint32_t)is_odd(h);
    return (int32_t)exchanged(h);
}

int32_t plain_read_short(uint8_t word)
{
    return read_word(word);
}

int32_t plain_read_long(uint16_t word)
{
    return read_word(word);
}

int32_t plain_write_short(uint8_t figure)
{
    return figure <= 15 ? write_word(figure) : -2;
}

int32_t plain_write_long(uint16_t figure)
{
    return figure <= 2047 ? write_word(figure) : -2;
}

/* ---- A telegram ---- */

static int32_t read_telegram_word(uint8_t word)
{
    int32_t figure = read_word(word);
    return figure == 15 ? -3 : figure;
}

int32_t plain_read_telegram(uint8_t x, uint8_t y, uint8_t z)
{
    int32_t fx = read_telegram_word(x);
    if (fx < 0)
        return fx;
    if (fx == 12) {
        int32_t number = read_word((uint32_t)y << 8 | z);
        return number < 0 ? number : 12 * 65536 + number;
    }
    int32_t fy = read_telegram_word(y);
    if (fy < 0)
        return fy;
    int32_t fz = read_telegram_word(z);
    if (fz < 0)
        return fz;
    return fx * 65536 + fy * 256 + fz;
}

bool plain_is_good_pair(uint8_t s, uint8_t t)
{
    return __builtin_popcount(s ^ t) == 7;
}

/* Whether a stretch lies in a buffer of n bytes and has at most 16,777,216 bits. */
bool plain_is_good_stretch(size_t n, uint64_t start, uint64_t len)
{
    uint64_t end = start + len;
    return len <= 16777216 && start <= end && end / 8 + (end % 8 != 0) <= n;
}

static inline uint32_t bit_at(const uint8_t *buf, size_t at)
{
    return buf[at / 8] >> (7 - at % 8) & 1;
}

/* The 39 bits from start. */
static uint64_t first_window(const uint8_t *buf, size_t start)
{
    uint64_t window = 0;
    for (size_t at = start; at < start + 39; at++)
        window = window << 1 | bit_at(buf, at);
    return window;
}

/* The telegram that the lowest 40 bits of the window are, or a negative number if they are none. */
static inline int32_t telegram_in(uint64_t window, uint8_t s, uint8_t t)
{
    uint64_t outer = window & 0xFF000000FF;
    if (outer != ((uint64_t)s << 32 | t) && outer != ((uint64_t)t << 32 | s))
        return -1;
    return plain_read_telegram((uint8_t)(window >> 24), (uint8_t)(window >> 16), (uint8_t)(window >> 8));
}

int32_t plain_find(const uint8_t *buf, size_t n, size_t start, size_t len, uint8_t s, uint8_t t, uint64_t out[2])
{
    if (!plain_is_good_pair(s, t))
        return -4;
    if (!plain_is_good_stretch(n, start, len))
        return -5;
    if (len < 40)
        return -6;
    uint64_t window = first_window(buf, start);
    for (size_t at = start + 39; at < start + len; at++) {
        window = window << 1 | bit_at(buf, at);
        int32_t telegram = telegram_in(window, s, t);
        if (telegram >= 0) {
            out[0] = at - 39;
            out[1] = (uint64_t)telegram;
            return 0;
        }
    }
    return -6;
}

/* ---- Contacts and readings ---- */

/* At least 64 bits, zeroes followed by at most 11 ones. */
bool plain_is_marker(const uint8_t *buf, size_t start, size_t len)
{
    size_t zeroes = 0;
    while (zeroes < len && bit_at(buf, start + zeroes) == 0)
        zeroes++;
    if (len < 64 || len - zeroes > 11)
        return false;
    for (size_t i = zeroes; i < len; i++)
        if (bit_at(buf, start + i) == 0)
            return false;
    return true;
}

int32_t plain_judge(const uint8_t *buf, size_t n, size_t start, size_t len, uint8_t s, uint8_t t, uint64_t out[3])
{
    if (!plain_is_good_pair(s, t))
        return -4;
    if (!plain_is_good_stretch(n, start, len))
        return -5;
    int32_t read = -1;
    uint64_t first = 0, places = 0;
    if (len >= 40) {
        uint64_t window = first_window(buf, start);
        for (size_t at = start + 39; at < start + len; at++) {
            window = window << 1 | bit_at(buf, at);
            int32_t telegram = telegram_in(window, s, t);
            if (telegram < 0)
                continue;
            if (places == 0) {
                read = telegram;
                first = at - 39;
            } else if (telegram != read) {
                return -7;
            }
            places++;
        }
    }
    if (places >= 2) {
        out[0] = (uint64_t)read;
        out[1] = first;
        out[2] = places;
        return 1;
    }
    return plain_is_marker(buf, start, len) ? 2 : -8;
}

int32_t plain_begin(const uint8_t *buf, size_t n, size_t start, size_t len, uint64_t search[3])
{
    (void)buf;
    if (!plain_is_good_stretch(n, start, len))
        return -5;
    search[0] = start;
    search[1] = len;
    search[2] = 0xFFFF;
    return 0;
}

int32_t plain_next_contact(const uint8_t *buf, size_t n, uint64_t search[3], uint64_t out[2])
{
    if (!plain_is_good_stretch(n, search[0], search[1]))
        return -5;
    uint64_t at = search[0], end = search[0] + search[1];
    uint32_t history = search[2] & 0xFFFF;
    uint32_t zeroes = 16 - (uint32_t)__builtin_popcount(history);

    for (; at < end; at++) {
        uint32_t bit = bit_at(buf, at);
        zeroes += (history >> 15) - bit;
        history = (history << 1 | bit) & 0xFFFF;
        if (zeroes >= 8)
            break;
    }
    if (at == end)
        return 0;

    uint64_t start = at;
    for (at++; at < end; at++) {
        uint32_t bit = bit_at(buf, at);
        zeroes += (history >> 15) - bit;
        history = (history << 1 | bit) & 0xFFFF;
        if (zeroes <= 4) {
            out[0] = start;
            out[1] = at - start;
            search[0] = at + 1;
            search[1] = end - (at + 1);
            search[2] = history;
            return 1;
        }
    }
    return -9;
}

/* ---- Groups ---- */

int32_t plain_distance(uint8_t by, uint8_t figure)
{
    static const int32_t base[15] = {0, 1750, 3500, 5250, 7000, 10500, 14000, 21000, 35000, 49000, 63000, 77000, 91000, 105000, 7500};
    static const int32_t step[15] = {125, 125, 125, 125, 250, 250, 500, 1000, 1000, 1000, 1000, 1000, 1000, 1000, -500};
    if (by > 14 || figure < 1 || figure > 14)
        return -15;
    return base[by] + step[by] * figure;
}

enum kind { SIGNAL, WARNING, ANNULLED, LINE, ROUTE };

#define MARKER 16 /* stands for a category, which a balise's X is */

struct reading {
    uint8_t x, y, z;
};

/* A group that a row fits. a is the number of its A balise, number the figure of its number
   balise, distance that of a present signal or warning board. */
struct seen {
    enum kind kind;
    bool opposite;
    int a;
    int number;
    int32_t distance;
    struct reading b[5];
};

/* Passes the balise at *i if it is of the category. */
static bool pass(const struct reading *b, int n, int *i, uint8_t category)
{
    if (*i == n || b[*i].x != category)
        return false;
    ++*i;
    return true;
}

/* [12] [8] A, up to A itself; a warning board has no 12 there. */
static bool begins_present(const struct reading *b, int a, bool may_have_number)
{
    int i = 0;
    if (may_have_number)
        pass(b, a, &i, 12);
    pass(b, a, &i, 8);
    return i == a;
}

/* A 9 [14] [12], after A. */
static bool ends_present(const struct reading *b, int n, int a)
{
    int i = a + 1;
    if (!pass(b, n, &i, 9))
        return false;
    pass(b, n, &i, 14);
    pass(b, n, &i, 12);
    return i == n;
}

static bool fits_present(const struct reading *b, int n, int a)
{
    const struct reading *A = &b[a];
    const struct reading *next = a + 1 < n ? &b[a + 1] : NULL;
    switch (A->x) {
    case 1: case 4: case 10:
        return begins_present(b, a, true) && ends_present(b, n, a);
    case 2:
        return begins_present(b, a, false) && ends_present(b, n, a) && A->z <= 13 && next->y <= 13;
    case 3:
        return a == 0 && n == 2 && next->x == (A->y <= 8 ? 5 : MARKER) && A->z <= 13;
    default: /* 5 */
        return a == 0 && n == 2 && (next->x == 3 || next->x == 5 || next->x == 7)
            && ((A->y == 2 && A->z <= 13) || (A->y == 4 && A->z == 10));
    }
}

/* [12] [14] 9 A, up to A itself. */
static bool begins_opposite(const struct reading *b, int a)
{
    int i = 0;
    pass(b, a, &i, 12);
    pass(b, a, &i, 14);
    return pass(b, a, &i, 9) && i == a;
}

/* [12] M A, up to A itself. */
static bool begins_marked(const struct reading *b, int a)
{
    int i = 0;
    pass(b, a, &i, 12);
    return pass(b, a, &i, MARKER) && i == a;
}

/* A [8] [12], after A. */
static bool ends_opposite(const struct reading *b, int n, int a)
{
    int i = a + 1;
    pass(b, n, &i, 8);
    pass(b, n, &i, 12);
    return i == n;
}

static bool fits_opposite(const struct reading *b, int n, int a)
{
    switch (b[a].x) {
    case 1: case 4: case 10:
        return begins_opposite(b, a) && ends_opposite(b, n, a);
    case 2:
        return a == n - 1 && (begins_opposite(b, a) || begins_marked(b, a));
    case 3:
        return a == 1 && n == 2 && b[0].x == MARKER && b[a].y >= 9;
    default: /* 5 */
        return false;
    }
}

/* The number of the A balise: the first of category 1, 2, 3, 4, 5 or 10; n where there is none. */
static int a_balise(const struct reading *b, int n)
{
    int i = 0;
    while (i < n && !((b[i].x >= 1 && b[i].x <= 5) || b[i].x == 10))
        i++;
    return i;
}

static enum kind kind_of(uint8_t category)
{
    switch (category) {
    case 2: return WARNING;
    case 3: return LINE;
    case 5: return ROUTE;
    case 10: return ANNULLED;
    default: return SIGNAL;
    }
}

/* The distance of a present signal or warning board: A, then the 9, then perhaps a 14. A preset
 * point, which only a signal can be, is refused with a target of 0 or 40 km/h. */
static int32_t judged_distance(const struct reading *b, int n, int a)
{
    const struct reading *A = &b[a], *B = &b[a + 1];
    if (B->y == 14 && (A->z == 0 || A->z == 1 || A->z == 13))
        return -15;
    bool has_14 = a + 2 < n && b[a + 2].x == 14;
    if (!has_14)
        return plain_distance(B->y, B->z);
    return B->z == 0 ? plain_distance(B->y, b[a + 2].y) : -15;
}

/* Reads the words of a group's balises. */
static bool read_balises(const struct plain_group *group, struct reading *b)
{
    for (uint32_t i = 0; i < group->count; i++) {
        const struct plain_balise *balise = &group->kept[i];
        b[i] = (struct reading){MARKER, 0, 0};
        if (balise->kind == 1)
            continue;
        int32_t telegram = balise->kind == 0 ? plain_read_telegram(balise->x, balise->y, balise->z) : -1;
        if (telegram < 0)
            return false;
        b[i] = (struct reading){(uint8_t)(telegram >> 16), (uint8_t)(telegram >> 8), (uint8_t)telegram};
    }
    return true;
}

/* Judges a group as it closes: 0, or the number of its refusal. */
static int judge_group(const struct plain_group *group, struct seen *seen)
{
    int n = (int)group->count;
    if (n == 1)
        return 10;
    if (n > 5)
        return 11;
    if (!read_balises(group, seen->b))
        return 12;
    int numbers = 0;
    seen->number = PLAIN_UNKNOWN;
    for (int i = 0; i < n; i++)
        if (seen->b[i].x == 12) {
            numbers++;
            seen->number = seen->b[i].y << 8 | seen->b[i].z;
        }
    int a = a_balise(seen->b, n);
    if (numbers > 1 || a == n)
        return 13;
    bool present = fits_present(seen->b, n, a);
    if (!present && !fits_opposite(seen->b, n, a))
        return 13;
    seen->kind = kind_of(seen->b[a].x);
    seen->opposite = !present;
    seen->a = a;
    seen->distance = 0;
    if (present && (seen->kind == SIGNAL || seen->kind == WARNING))
        seen->distance = judged_distance(seen->b, n, a);
    return seen->distance < 0 ? 15 : 0;
}

/* ---- A ride ---- */

static char *put_text(char *out, const char *text)
{
    size_t n = strlen(text);
    memcpy(out, text, n);
    return out + n;
}

static char *put_number(char *out, uint64_t number)
{
    char digits[20];
    int n = 0;
    do {
        digits[n++] = (char)('0' + number % 10);
        number /= 10;
    } while (number != 0);
    while (n > 0)
        *out++ = digits[--n];
    return out;
}

void plain_fresh(struct plain_ride *ride)
{
    *ride = (struct plain_ride){.main_speed = PLAIN_UNKNOWN, .target = PLAIN_UNKNOWN, .number = PLAIN_UNKNOWN};
}

/* Tables HS and FS; 14 is no information. */
static int speed(uint8_t figure)
{
    static const int kmh[14] = {0, 40, 50, 60, 70, 80, 90, 100, 130, 160, 190, 220, 270, 0};
    return figure <= 13 ? kmh[figure] : PLAIN_UNKNOWN;
}

/* The mark of a present signal whose A balise stands at the place. */
static const char *mark(const struct plain_ride *ride, uint32_t place)
{
    if (!ride->linked)
        return " first";
    uint64_t travelled = place - ride->from, distance = ride->distance;
    if (5 * travelled < 4 * distance)
        return " early";
    return 5 * travelled <= 6 * distance ? " good" : " late";
}

/* A present signal sets linking anew, the main speed, the target and the number. */
static void pass_signal(struct plain_ride *ride, const struct seen *seen, uint32_t place)
{
    const struct reading *A = &seen->b[seen->a], *B = A + 1;
    ride->linked = B->y != 14;
    ride->distance = (uint32_t)seen->distance;
    ride->from = place;
    if (A->y != 14)
        ride->main_speed = speed(A->y);
    const struct reading *P = seen->a > 0 && A[-1].x == 8 ? A - 1 : NULL;
    bool is_lowered = P != NULL && P->y >= 7 && P->z != 0 && A->z == 1 && A->y != 0 && A->y != 13;
    ride->target = speed(is_lowered ? 0 : A->z);
    ride->number = seen->number;
}

/* Closes and judges the open group, and puts its line. */
static char *close_group(struct plain_ride *ride, char *out)
{
    static const char *const names[5] = {"signal", "warning", "annulled", "line", "route"};
    struct seen seen;
    int fault = judge_group(&ride->group, &seen);
    if (fault != 0) {
        out = put_number(out, ride->group.kept[0].place);
        out = put_text(out, " fault ");
        out = put_number(out, (uint64_t)fault);
        *out++ = '\n';
        ride->linked = false;
        ride->main_speed = ride->target = ride->number = PLAIN_UNKNOWN;
    } else {
        uint32_t place = ride->group.kept[seen.a].place;
        out = put_number(out, place);
        out = put_text(out, seen.opposite ? " opposite " : " present ");
        out = put_text(out, names[seen.kind]);
        if (seen.kind == SIGNAL && !seen.opposite) {
            out = put_text(out, mark(ride, place));
            pass_signal(ride, &seen, place);
        }
        if (seen.kind == SIGNAL && seen.number != PLAIN_UNKNOWN) {
            out = put_text(out, " n");
            out = put_number(out, (uint64_t)seen.number);
        }
        *out++ = '\n';
    }
    ride->group.count = 0;
    return out;
}

/* A balise joins the open group or opens one. */
static void join(struct plain_group *group, uint32_t place, const uint8_t *record)
{
    if (group->count < 5)
        group->kept[group->count] = (struct plain_balise){place, record[4], record[5], record[6], record[7]};
    if (group->count < 6)
        group->count++;
    group->last = place;
}

/* Step 1: the number with which a record is refused, or 0. */
static int refusal(const struct plain_ride *ride, uint32_t odometer, const uint8_t *record)
{
    if (record[4] > 3 || (record[4] != 0 && (record[5] | record[6] | record[7]) != 0))
        return 16;
    if (odometer > 4000000000)
        return 18;
    return odometer < ride->odometer ? 17 : 0;
}

static uint32_t odometer_of(const uint8_t *record)
{
    return (uint32_t)record[0] << 24 | (uint32_t)record[1] << 16 | (uint32_t)record[2] << 8 | record[3];
}

/* One record, and its lines. */
static char *step(struct plain_ride *ride, uint32_t gap, const uint8_t *record, char *out)
{
    uint32_t odometer = odometer_of(record);
    ride->records++;
    int refused = refusal(ride, odometer, record);
    if (refused != 0) {
        out = put_text(out, "record ");
        out = put_number(out, ride->records);
        out = put_text(out, " refused ");
        out = put_number(out, (uint64_t)refused);
        *out++ = '\n';
        return out;
    }
    ride->odometer = odometer;
    if (ride->group.count != 0 && odometer - ride->group.last > gap)
        out = close_group(ride, out);
    if (ride->group.count == 0 && ride->linked && 5 * (uint64_t)(odometer - ride->from) > 6 * (uint64_t)ride->distance) {
        out = put_number(out, ride->from + 6 * (uint64_t)ride->distance / 5);
        out = put_text(out, " missed\n");
        ride->linked = false;
    }
    if (record[4] != 3)
        join(&ride->group, odometer, record);
    return out;
}

size_t plain_list(struct plain_ride *ride, uint32_t gap, const uint8_t *trace, size_t records, char *out, size_t room,
                  size_t *taken)
{
    char *at = out;
    size_t i = 0;
    for (; i < records && room - (size_t)(at - out) >= PLAIN_ROOM; i++)
        at = step(ride, gap, trace + 8 * i, at);
    *taken = i;
    return (size_t)(at - out);
}

size_t plain_end(struct plain_ride *ride, char *out)
{
    return ride->group.count == 0 ? 0 : (size_t)(close_group(ride, out) - out);
}

int64_t plain_check(uint32_t gap, const uint8_t *trace, size_t n, char *out)
{
    if (gap < 1 || gap > 200)
        return -19;
    if (n % 8 != 0)
        return put_text(out, PLAIN_BAD_TRACE) - out;
    struct plain_ride ride;
    size_t taken;
    plain_fresh(&ride);
    size_t written = plain_list(&ride, gap, trace, n / 8, out, PLAIN_ROOM * (n / 8), &taken);
    return (int64_t)(written + plain_end(&ride, out + written));
}

/* ---- Smaller traces ---- */

size_t plain_compact_block(struct plain_waiting *waiting, uint32_t gap, uint8_t *block, size_t records)
{
    size_t kept = 0;
    for (size_t i = 0; i < records; i++) {
        uint8_t next[8];
        memcpy(next, block + 8 * i, 8);
        if (waiting->waits) {
            char lines[2 * PLAIN_ROOM];
            bool is_quiet = step(&waiting->ride, gap, waiting->record, lines) == lines;
            bool is_dropped = waiting->record[4] == 3 && is_quiet && refusal(&waiting->ride, odometer_of(next), next) == 0;
            if (!is_dropped)
                memcpy(block + 8 * kept++, waiting->record, 8);
        }
        memcpy(waiting->record, next, 8);
        waiting->waits = true;
    }
    return kept;
}

int64_t plain_compact(uint32_t gap, uint8_t *trace, size_t n)
{
    if (gap < 1 || gap > 200)
        return -19;
    if (n % 8 != 0)
        return -16;
    struct plain_waiting waiting = {.waits = false};
    plain_fresh(&waiting.ride);
    size_t kept = plain_compact_block(&waiting, gap, trace, n / 8);
    if (waiting.waits)
        memcpy(trace + 8 * kept++, waiting.record, 8);
    return (int64_t)(8 * kept);
}
