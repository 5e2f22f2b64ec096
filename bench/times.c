/* times NAME FILE..: the sides read all words of the two codes again and again, then do the same
   jobs over each stretch of 16,777,216 bits. Their answers are compared first, and a difference
   ends the run with status 1; then each side does the job five times, in turn, and a line says
   the least time of each in processor seconds and the ratio of proved to it. NAME is what the
   line calls the stretch; that named `line` is gone over as a vehicle hears it, contact after
   contact, each judged.
   times grows NAME FILE..: the proved side's time over 1, 2, 4, 8 and 16 Mbit of each stretch. */
#include "pair.h"
#include "sides.h"

#include <inttypes.h>
#include <stdio.h>
#include <string.h>
#include <time.h>

#define BYTES (16777216 / 8)
#define ROUNDS 5

static uint8_t stretch[BYTES];
static size_t bytes = BYTES; /* how many of them a job goes over */

/* ---- What a job answered, as one number: every value of every answer counts, in its order ---- */

static uint64_t digest, answers;

static void note(uint64_t value)
{
    digest = (digest ^ value) * 0x100000001B3;
    digest ^= digest >> 29;
}

static void note_answer(int32_t answer)
{
    answers++;
    note((uint64_t)answer);
}

/* ---- The jobs ---- */

/* All words of a code, again and again. What one round answered is one sum, in which each word's
   answer counts by its place, so that noting it takes no time beside a read. */
#define WORDS_READ 16777216

static void note_round(uint64_t sum, uint32_t words)
{
    answers += words;
    note(sum);
}

static void read_long_words(const struct side *side)
{
    for (uint32_t done = 0; done < WORDS_READ; done += 65536) {
        uint64_t sum = 0;
        for (uint32_t w = 0; w < 65536; w++)
            sum += (uint64_t)side->read_long((uint16_t)w) * (2 * w + 1);
        note_round(sum, 65536);
    }
}

static void read_short_words(const struct side *side)
{
    for (uint32_t done = 0; done < WORDS_READ; done += 256) {
        uint64_t sum = 0;
        for (uint32_t w = 0; w < 256; w++)
            sum += (uint64_t)side->read_short((uint8_t)w) * (2 * w + 1);
        note_round(sum, 256);
    }
}

/* Every place of the stretch: asked again from the bit after each. */
static void find_all(const struct side *side)
{
    uint64_t out[2] = {0, 0};
    size_t start = 0;
    for (;;) {
        int32_t answer = side->find(stretch, bytes, start, 8 * bytes - start, BENCH_S, BENCH_T, out);
        note_answer(answer);
        note(out[0]);
        note(out[1]);
        if (answer != 0)
            return;
        start = (size_t)out[0] + 1;
    }
}

/* The whole stretch, as one contact. */
static void judge_whole(const struct side *side)
{
    uint64_t out[3] = {0, 0, 0};
    note_answer(side->judge(stretch, bytes, 0, 8 * bytes, BENCH_S, BENCH_T, out));
    for (int i = 0; i < 3; i++)
        note(out[i]);
}

/* Every contact of the stretch, and with judge its judgement. */
static void pass(const struct side *side, bool judge)
{
    uint64_t search[3] = {0, 0, 0}, out[2] = {0, 0}, said[3] = {0, 0, 0};
    int32_t answer = side->begin(stretch, bytes, 0, 8 * bytes, search);
    while (answer >= 0) {
        answer = side->next_contact(stretch, bytes, search, out);
        note_answer(answer);
        for (int i = 0; i < 3; i++)
            note(search[i]);
        note(out[0]);
        note(out[1]);
        if (answer != 1)
            return;
        if (judge) {
            note_answer(side->judge(stretch, bytes, (size_t)out[0], (size_t)out[1], BENCH_S, BENCH_T, said));
            for (int i = 0; i < 3; i++)
                note(said[i]);
        }
    }
}

static void next_all(const struct side *side)
{
    pass(side, false);
}

static void next_and_judge(const struct side *side)
{
    pass(side, true);
}

static const struct {
    const char *name;
    void (*job)(const struct side *side);
    enum input { WORDS, STRETCH, LINE } over;
} jobs[] = {
    {"read_long", read_long_words, WORDS},
    {"read_short", read_short_words, WORDS},
    {"find", find_all, STRETCH},
    {"judge", judge_whole, STRETCH},
    {"next_contact", next_all, STRETCH},
    {"next_contact, judge", next_and_judge, LINE},
};

/* ---- Measuring ---- */

static double now(void)
{
    struct timespec t;
    clock_gettime(CLOCK_PROCESS_CPUTIME_ID, &t);
    return (double)t.tv_sec + (double)t.tv_nsec / 1e9;
}

static double measured(void (*job)(const struct side *), const struct side *side)
{
    digest = answers = 0;
    double began = now();
    job(side);
    return now() - began;
}

static bool load(const char *file)
{
    FILE *in = fopen(file, "rb");
    if (in == NULL)
        return false;
    bool whole = fread(stretch, 1, BYTES, in) == BYTES;
    fclose(in);
    return whole;
}

/* The sides that a job has: all three, but that words are read by the first two alone. */
static const struct side *const sides[] = {&proved, &other, &wide};

static bool run_job(size_t i, const char *name)
{
    int many = jobs[i].over == WORDS ? 2 : 3;
    uint64_t wanted = 0, answered = 0;
    for (int k = 0; k < many; k++) {
        measured(jobs[i].job, sides[k]);
        if (k == 0) {
            wanted = digest;
            answered = answers;
        } else if (digest != wanted || answers != answered) {
            printf("%s, %s: %s and %s DIFFER\n", jobs[i].name, name, sides[0]->name, sides[k]->name);
            return false;
        }
    }
    double least[3] = {1e9, 1e9, 1e9};
    for (int round = 0; round < ROUNDS; round++)
        for (int k = 0; k < many; k++) {
            double took = measured(jobs[i].job, sides[k]);
            if (took < least[k])
                least[k] = took;
        }
    printf("%-20s %-10s %8" PRIu64 " answers alike; %s %.4f s", jobs[i].name, name, answered, sides[0]->name, least[0]);
    for (int k = 1; k < many; k++)
        printf(", %s %.4f s, ratio %.2f", sides[k]->name, least[k], least[0] / least[k]);
    printf("\n");
    fflush(stdout);
    return true;
}

/* The jobs over this kind of input. */
static bool run_jobs(enum input over, const char *name)
{
    for (size_t i = 0; i < sizeof jobs / sizeof jobs[0]; i++)
        if (jobs[i].over == over && !run_job(i, name))
            return false;
    return true;
}

/* How cost grows: each job over a sixteenth of the stretch, an eighth, and so on, so often that
   the bits are as many each time. */
static void grow(const char *name)
{
    for (size_t i = 0; i < sizeof jobs / sizeof jobs[0]; i++) {
        if (jobs[i].over != STRETCH)
            continue;
        double first = 0, took = 0;
        printf("%-20s %-10s", jobs[i].name, name);
        for (bytes = BYTES / 16; bytes <= BYTES; bytes *= 2) {
            took = 1e9;
            for (int round = 0; round < ROUNDS; round++) {
                double sum = 0;
                for (size_t times = 0; times < BYTES / bytes; times++)
                    sum += measured(jobs[i].job, &proved);
                if (sum < took)
                    took = sum;
            }
            if (bytes == BYTES / 16)
                first = took;
            printf(" %2zu Mbit %.4f s,", bytes / (BYTES / 16), took * (double)bytes / BYTES);
        }
        bytes = BYTES;
        printf(" last to first a bit %.2f\n", took / first);
        fflush(stdout);
    }
}

int main(int argc, char **argv)
{
    bool grows = argc > 1 && strcmp(argv[1], "grows") == 0;
    bool good = grows || run_jobs(WORDS, "words");
    for (int a = grows ? 2 : 1; good && a + 1 < argc; a += 2) {
        if (!load(argv[a + 1])) {
            fprintf(stderr, "times: %s has no %d bytes\n", argv[a + 1], BYTES);
            return 2;
        }
        if (grows)
            grow(argv[a]);
        else
            good = run_jobs(strcmp(argv[a], "line") == 0 ? LINE : STRETCH, argv[a]);
    }
    return good ? 0 : 1;
}
