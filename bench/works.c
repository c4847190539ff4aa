/* The works by name, at one size: n, or the number of gates.

   works agree SIZE NAME             whether Rattle and C leave equal buffers in the works of that one's family: exit status 0 where they do
   works run SIZE NAME:WHO           does it once, so that its instructions can be counted
   works rest SIZE NAME:WHO          does what goes before it, and not the work itself
   works clock SIZE TURNS NAME:WHO.. times all of them in turn, so often: a line a turn, for each the nanoseconds of run and rest, for the work
                                     done once

   WHO is rattle, int128 (C straight from document 01), shape (C in the same shape) or read (a plain read of the key). */
#define _POSIX_C_SOURCE 199309L
#include <stdio.h>
#include <stdlib.h>
#include <string.h>
#include <time.h>
#include "work.h"

enum { MOST_WORDS = 64 };

/* A work and who does it. */
struct chosen {
    const struct family *family;
    const struct work *work;
    enum who who;
};

static _Noreturn void fail(const char *text, const char *word) {
    fprintf(stderr, "%s: %s\n", text, word);
    exit(2);
}

/* ---- what is asked for */

static enum who who_of(const char *word) {
    static const char *const names[] = {"rattle", "int128", "shape", "read"};
    for (unsigned k = 0; k < sizeof names / sizeof *names; k++)
        if (strcmp(word, names[k]) == 0) return (enum who)k;
    fail("nobody is called so", word);
}

static int named(const struct work *work, const char *word, size_t length) {
    return strlen(work->name) == length && strncmp(work->name, word, length) == 0;
}

static struct chosen choose(const char *word) {
    static const struct family *const families[] = {&by_n, &by_gates};
    const char *colon = strchr(word, ':');
    const size_t length = colon ? (size_t)(colon - word) : strlen(word);
    for (unsigned f = 0; f < sizeof families / sizeof *families; f++)
        for (unsigned k = 0; k < families[f]->count; k++)
            if (named(&families[f]->works[k], word, length))
                return (struct chosen){families[f], &families[f]->works[k], colon ? who_of(colon + 1) : RATTLE};
    fail("no work is called so", word);
}

/* ---- the clock */

/* Processor time in nanoseconds, so that what else the machine does counts less. */
static double now(void) {
    struct timespec s;
    clock_gettime(CLOCK_PROCESS_CPUTIME_ID, &s);
    return (double)s.tv_sec * 1e9 + (double)s.tv_nsec;
}

static double clock_part(struct chosen c, void (*part)(unsigned, enum who, uint32_t), uint32_t times) {
    c.family->warm();
    const double began = now();
    part(c.work->which, c.who, times);
    return (now() - began) / times;
}

/* Tells the time of the run and that of the rest, for the work done once. */
static void clock_one(struct chosen c) {
    const uint32_t times = c.work->times(c.work->which);
    const double rest = clock_part(c, c.work->rest, times), run = clock_part(c, c.work->run, times);
    printf("%.2f %.2f ", run, rest);
}

static void clock_all(const struct chosen *all, unsigned count, unsigned turns) {
    for (unsigned turn = 0; turn < turns; turn++) {
        for (unsigned k = 0; k < count; k++) clock_one(all[k]);
        printf("\n");
    }
}

int main(int count, char **words) {
    if (count < 4 || count > MOST_WORDS) fail("the head of bench/works.c says what can be asked for", words[0]);
    const uint64_t size = strtoull(words[2], NULL, 10);
    const int timed = strcmp(words[1], "clock") == 0, first = timed ? 4 : 3;
    struct chosen all[MOST_WORDS];
    for (int k = first; k < count; k++) all[k - first] = choose(words[k]);
    if (first >= count) fail("no work is named", words[1]);
    for (int k = first; k < count; k++)
        if (all[k - first].family != all[0].family) fail("its size is not that of the first", words[k]);
    all[0].family->lend(size);
    const struct work *work = all[0].work;
    if (timed) clock_all(all, (unsigned)(count - first), (unsigned)atoi(words[3]));
    else if (strcmp(words[1], "agree") == 0) return all[0].family->agree() ? 0 : 1;
    else if (strcmp(words[1], "run") == 0) work->run(work->which, all[0].who, 1);
    else if (strcmp(words[1], "rest") == 0) work->rest(work->which, all[0].who, 1);
    else fail("nothing is called so", words[1]);
    return 0;
}
