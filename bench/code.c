/* Time per word of the proved code beside libfec, on the same words in one run. */
#include <fec.h>
#include <stdint.h>
#include <stdio.h>
#include <stdlib.h>
#include <string.h>
#include <time.h>

uint32_t bethlyfor_encode(uint8_t *word, size_t len);
uint32_t bethlyfor_correct(uint8_t *word, size_t len);

enum { WORDS = 256, SIZE = 204, MESSAGE = 188 };

static uint8_t good[WORDS][SIZE], bad[WORDS][SIZE], work[SIZE];
static void *rs;
static volatile int sink;

static double now(void)
{
    struct timespec t;
    clock_gettime(CLOCK_MONOTONIC, &t);
    return t.tv_sec * 1e9 + t.tv_nsec;
}

static int fec_encode(uint8_t *w) { encode_rs_char(rs, w, w + MESSAGE); return 0; }
static int fec_correct(uint8_t *w) { return decode_rs_char(rs, w, NULL, 0); }
static int our_encode(uint8_t *w) { return (int)bethlyfor_encode(w, SIZE); }
static int our_correct(uint8_t *w) { return (int)bethlyfor_correct(w, SIZE); }

/* the best of several rounds, in nanoseconds a word, less what copying the word costs */
static double per_word(int (*call)(uint8_t *), uint8_t words[WORDS][SIZE], int rounds)
{
    double best = 1e18, copy = 1e18;
    for (int r = 0; r < rounds; r++) {
        double t = now();
        for (int i = 0; i < WORDS; i++) { memcpy(work, words[i], SIZE); sink = work[i % SIZE]; }
        t = (now() - t) / WORDS;
        if (t < copy) copy = t;
        t = now();
        for (int i = 0; i < WORDS; i++) { memcpy(work, words[i], SIZE); sink = call(work); }
        t = (now() - t) / WORDS;
        if (t < best) best = t;
    }
    return best - copy;
}

static void row(const char *name, double ours, double theirs)
{
    printf("%-24s %10.0f %10.0f %8.2f\n", name, ours, theirs, theirs / ours);
}

static void damage(int errors)
{
    for (int i = 0; i < WORDS; i++) {
        uint8_t hit[SIZE] = {0};
        memcpy(bad[i], good[i], SIZE);
        for (int e = 0; e < errors;) {
            int p = rand() % SIZE;
            if (hit[p]) continue;
            hit[p] = 1;
            bad[i][p] ^= 1 + rand() % 255;
            e++;
        }
        memcpy(work, bad[i], SIZE);
        if (our_correct(work) != errors || memcmp(work, good[i], SIZE)) { puts("ours is wrong"); exit(1); }
        memcpy(work, bad[i], SIZE);
        if (fec_correct(work) != errors || memcmp(work, good[i], SIZE)) { puts("libfec is wrong"); exit(1); }
    }
}

int main(void)
{
    static const int counts[] = {0, 1, 4, 8};
    rs = init_rs_char(8, 0x11d, 0, 1, 16, 51);
    if (!rs) { puts("libfec: no codec"); return 1; }
    srand(1);
    for (int i = 0; i < WORDS; i++) {
        for (int k = 0; k < MESSAGE; k++) good[i][k] = rand();
        fec_encode(good[i]);
        memcpy(work, good[i], MESSAGE);
        if (our_encode(work) || memcmp(work, good[i], SIZE)) { puts("the encoders differ"); return 1; }
    }
    printf("%-24s %10s %10s %8s\n", "a word of 204 bytes", "ours ns", "libfec ns", "ratio");
    row("encode", per_word(our_encode, good, 60), per_word(fec_encode, good, 20));
    for (int c = 0; c < 4; c++) {
        char name[40];
        damage(counts[c]);
        snprintf(name, sizeof name, "correct, %d errors", counts[c]);
        row(name, per_word(our_correct, bad, 60), per_word(fec_correct, bad, 20));
    }
    return 0;
}
