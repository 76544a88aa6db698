/* The plain harness: random SECONDS [SEED] [DIRECTORY]. Puts random inputs to every entry for so long, and says how
 * many. With a directory it writes 2,000 inputs there, for another fuzzer to start from, and checks nothing. */
#define _GNU_SOURCE
#include "generate.h"
#include "properties.h"

#include <inttypes.h>
#include <signal.h>
#include <stdio.h>
#include <stdlib.h>
#include <string.h>
#include <time.h>
#include <unistd.h>

static uint64_t calls[ENTRIES], accepted_calls[ENTRIES], seen[ENTRIES][REFUSALS + 1];
static uint64_t started_with;

static void count(int entry, uint64_t refusal, uint64_t value)
{
    (void)value;
    calls[entry]++;
    accepted_calls[entry] += !refusal;
    seen[entry][refusal]++;
}

static void endless(int signal)
{
    static const char said[] = "FOUND: a call does not end within 20 seconds\n";
    (void)signal;
    if (write(2, said, sizeof said - 1)) {
    }
    _exit(1);
}

static double now(void)
{
    struct timespec t;
    clock_gettime(CLOCK_MONOTONIC, &t);
    return (double)t.tv_sec + 1e-9 * (double)t.tv_nsec;
}

static int write_corpus(const char *directory)
{
    static input one, other;
    for (int i = 0; i < 2000; i++) {
        char name[4096];
        generate(&one, &other);
        snprintf(name, sizeof name, "%s/%04d", directory, i);
        FILE *f = fopen(name, "wb");
        if (!f || fwrite(one.at, 1, one.len, f) != one.len || fclose(f))
            return perror(name), 2;
    }
    return 0;
}

int main(int words, char **word)
{
    static input one, other;
    double seconds = words > 1 ? atof(word[1]) : 10;
    seed = started_with = words > 2 ? strtoull(word[2], NULL, 10) : (uint64_t)time(NULL);
    if (words > 3)
        return write_corpus(word[3]);
    printf("seed %" PRIu64 "\n", started_with);
    fflush(stdout);
    answered = count;
    signal(SIGALRM, endless);
    uint64_t inputs = 0;
    double end = now() + seconds;
    for (; now() < end; inputs++) {
        if (inputs % 64 == 0)
            alarm(20);
        generate(&one, &other);
        properties(one.at, one.len, other.at, other.len, draw(UINT64_MAX));
    }
    alarm(0);
    uint64_t sum = 0;
    printf("%-34s %12s %12s  refusals seen\n", "entry", "calls", "accepted");
    for (int i = 0; i < ENTRIES; i++) {
        sum += calls[i];
        if (!calls[i])
            continue;
        printf("%-34s %12" PRIu64 " %12" PRIu64 " ", entry_names[i], calls[i], accepted_calls[i]);
        for (int j = 1; j <= REFUSALS; j++)
            if (seen[i][j])
                printf(" %d", j);
        printf("\n");
    }
    printf("%" PRIu64 " inputs, %" PRIu64 " calls in %.0f seconds: nothing found\n", inputs, sum, seconds);
    return 0;
}
