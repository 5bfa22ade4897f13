/* storm: runs a failover with one or more settings, and writes what it came to beside each other, or the samples as CSV. */
#include "storm.h"
#include <inttypes.h>
#include <stdio.h>
#include <stdlib.h>
#include <string.h>

enum { MOST_RUNS = 8, PORTION = 1000000, MOST_FILE = 65536 };

static const char usage[] =
    "usage: storm [--csv] [FILE | NAME=VALUE ..] [-- FILE | NAME=VALUE ..]\n"
    "Runs a failover in made-up time, in which each client is a driver of libmdb. Behind each -- stand the settings of one run more, which begin as those\n"
    "before it; a FILE has NAME=VALUE too, and notes behind #. Writes the sums of all runs, or with --csv all samples. The settings with their defaults:\n";

struct run {
    settings given;
    storm_sample *samples;
    size_t count;
    uint64_t sums[SUMS];
};

static void tell_usage(FILE *to) {
    settings usual = settings_default();
    fputs(usage, to);
    for (size_t i = 0; settings_name(i); i++) {
        if (settings_word(&usual, i)) fprintf(to, "  %s=%s\n", settings_name(i), settings_word(&usual, i));
        else fprintf(to, "  %s=%" PRIu32 "\n", settings_name(i), settings_value(&usual, i));
    }
    fputs("0 is no limit where a limit stands; death is refused, silent or stepdown. Times ending in US are in microseconds.\n", to);
}

static bool read_words(settings *to, const char *words, size_t length, const char *from) {
    size_t at = settings_read(to, words, length);
    if (at == length) return true;
    fprintf(stderr, "storm: %s: no setting, or out of its bounds: %.*s\n", from, (int)strcspn(words + at, " \n\r\t"), words + at);
    return false;
}

static bool read_file(settings *to, const char *name) {
    static char text[MOST_FILE];
    FILE *file = fopen(name, "r");
    if (!file) {
        fprintf(stderr, "storm: %s: no such file, and no NAME=VALUE\n", name);
        return false;
    }
    size_t length = fread(text, 1, sizeof text - 1, file);
    text[length] = 0;
    bool is_whole = length < sizeof text - 1 && !ferror(file);
    fclose(file);
    if (!is_whole) fprintf(stderr, "storm: %s: it cannot be read, or is too long\n", name);
    return is_whole && read_words(to, text, length, name);
}

/* The settings of all runs; how many there are, or 0. */
static size_t read_runs(char **words, int count, struct run *runs) {
    size_t at = 0;
    runs[0].given = settings_default();
    for (int i = 0; i < count; i++) {
        if (strcmp(words[i], "--") == 0) {
            if (++at == MOST_RUNS) {
                fprintf(stderr, "storm: more than %d runs\n", MOST_RUNS);
                return 0;
            }
            runs[at].given = runs[at - 1].given;
        } else if (!(strchr(words[i], '=') ? read_words(&runs[at].given, words[i], strlen(words[i]), "command line") : read_file(&runs[at].given, words[i]))) return 0;
    }
    return at + 1;
}

static bool go(struct run *run) {
    storm *it = storm_open(&run->given);
    int status = it ? STORM_MORE : STORM_NO_MEMORY;
    while (status == STORM_MORE) status = storm_go(it, PORTION);
    const uint64_t *sums = it && status == STORM_ENDED ? storm_sums(it) : NULL;
    if (sums) {
        const storm_sample *samples = storm_samples(it, &run->count);
        memcpy(run->sums, sums, sizeof run->sums);
        run->samples = malloc((run->count + 1) * sizeof *samples);
        if (run->samples) memcpy(run->samples, samples, run->count * sizeof *samples);
    }
    if (it) storm_close(it);
    if (status == STORM_FAULT) fputs("storm: the library refused a step\n", stderr);
    else if (!run->samples) fputs("storm: out of memory\n", stderr);
    return run->samples != NULL;
}

/* The settings in which the runs differ. */
static void write_settings(const struct run *runs, size_t count) {
    for (size_t i = 0; settings_name(i); i++) {
        bool differs = false;
        for (size_t run = 1; run < count; run++) differs |= settings_value(&runs[run].given, i) != settings_value(&runs[0].given, i);
        if (!differs) continue;
        printf("%-20s", settings_name(i));
        for (size_t run = 0; run < count; run++) {
            const char *word = settings_word(&runs[run].given, i);
            if (word) printf(" %12s", word);
            else printf(" %12" PRIu32, settings_value(&runs[run].given, i));
        }
        puts("");
    }
}

static void write_sums(const struct run *runs, size_t count) {
    write_settings(runs, count);
    for (size_t i = 0; storm_sum_name(i); i++) {
        printf("%-20s", storm_sum_name(i));
        for (size_t run = 0; run < count; run++) printf(" %12" PRIu64, runs[run].sums[i]);
        puts("");
    }
}

static void write_samples(const struct run *runs, size_t count) {
    fputs("run", stdout);
    for (size_t i = 0; storm_sample_name(i); i++) printf(",%s", storm_sample_name(i));
    puts("");
    for (size_t run = 0; run < count; run++)
        for (size_t i = 0; i < runs[run].count; i++) {
            uint32_t values[sizeof(storm_sample) / sizeof(uint32_t)];
            memcpy(values, &runs[run].samples[i], sizeof values);
            printf("%zu", run + 1);
            for (size_t at = 0; at < sizeof values / sizeof *values; at++) printf(",%" PRIu32, values[at]);
            puts("");
        }
}

int main(int argc, char **argv) {
    static struct run runs[MOST_RUNS];
    bool is_csv = argc > 1 && strcmp(argv[1], "--csv") == 0;
    bool asks = argc > 1 && (strcmp(argv[1], "--help") == 0 || strcmp(argv[1], "-h") == 0);
    if (asks) {
        tell_usage(stdout);
        return 0;
    }
    size_t count = read_runs(argv + 1 + is_csv, argc - 1 - is_csv, runs);
    if (count == 0) {
        tell_usage(stderr);
        return 2;
    }
    for (size_t i = 0; i < count; i++)
        if (!go(&runs[i])) return 1;
    if (is_csv) write_samples(runs, count);
    else write_sums(runs, count);
    for (size_t i = 0; i < count; i++) free(runs[i].samples);
    if (fflush(stdout) == 0 && !ferror(stdout)) return 0;
    fputs("storm: write fault\n", stderr);
    return 4;
}
