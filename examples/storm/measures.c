/* What is measured of a storm. */
#include "grow.h"
#include "world.h"

enum { STRETCH = 100 * MILLISECOND }; /* for so long no more may wait than before, or it is no recovery */

static const char *const names[SUMS] = {
    "asked", "done", "failed", "retried", "left", "network", "notPrimary", "poolCleared", "connect", "waitQueueTimeout", "serverSelection", "calm", "gapUS", "firstKnowsUS", "lastKnowsUS",
    "recoveredUS", "pendingMost", "opened", "liveMost", "acceptMostUS", "waitingMost", "waitsBefore", "waitsBeforeP50US", "waitsBeforeP99US", "waitsBeforeMostUS", "waitsGap",
    "waitsGapP50US", "waitsGapP99US", "waitsGapMostUS", "waitsAfter", "waitsAfterP50US", "waitsAfterP99US", "waitsAfterMostUS", "events", "steps",
};

static const char *const sample_names[] = {
    "moment", "liveA", "liveB", "liveC", "pendingA", "pendingB", "pendingC", "selecting", "queued", "running", "done", "failed", "opened",
};

enum { SAMPLE_NAMES = sizeof sample_names / sizeof *sample_names };

_Static_assert(sizeof(storm_sample) == SAMPLE_NAMES * sizeof(uint32_t), "each member has its name");

const char *storm_sample_name(size_t place) { return place < SAMPLE_NAMES ? sample_names[place] : NULL; }

const char *storm_sum_name(size_t place) { return place < SUMS ? names[place] : NULL; }

void sample_is_taken(storm *it) {
    if (it->samples_count == it->samples_room) {
        storm_sample *moved = grown(it->samples, &it->samples_room, it->samples_count + 1, sizeof *moved);
        if (!moved) {
            it->status = STORM_NO_MEMORY;
            return;
        }
        it->samples = moved;
    }
    it->here.moment = (uint32_t)(it->now / MILLISECOND);
    it->samples[it->samples_count++] = it->here;
    it->here.done = it->here.failed = it->here.opened = 0;
    later(it, it->given.sample * (uint64_t)MILLISECOND, (event){.kind = SAMPLES});
}

void wait_ends(storm *it, const struct operation *of) {
    if (it->waits_count == it->waits_room) {
        uint64_t *moved = grown(it->waits, &it->waits_room, it->waits_count + 1, sizeof *moved);
        if (!moved) {
            it->status = STORM_NO_MEMORY;
            return;
        }
        it->waits = moved;
    }
    it->waits[it->waits_count++] = 4 * (it->now - of->asked) + of->phase;
}

static void is_most(uint64_t *most, uint64_t it) {
    if (it > *most) *most = it;
}

/* Whether the waiting callers are again as few as in the second before the failure, for a stretch of time. */
static void look_for_recovery(storm *it, uint64_t waiting) {
    if (waiting > it->sums[SUM_CALM]) it->calm_since = NEVER;
    else if (it->calm_since == NEVER) it->calm_since = it->now;
    else if (it->now - it->calm_since >= STRETCH) it->sums[SUM_RECOVERED] = it->calm_since;
}

void look(storm *it) {
    uint64_t waiting = (uint64_t)it->here.selecting + it->here.queued, fails_at = it->given.fails_at * (uint64_t)MILLISECOND;
    if (it->now < fails_at) {
        if (it->now + SECOND >= fails_at) is_most(&it->sums[SUM_CALM], waiting);
        return;
    }
    is_most(&it->sums[SUM_PENDING_MOST], it->here.pending[SUCCESSOR]);
    is_most(&it->sums[SUM_LIVE_MOST], it->here.live[SUCCESSOR]);
    is_most(&it->sums[SUM_WAITING_MOST], waiting);
    if (it->is_elected && it->sums[SUM_RECOVERED] == 0) look_for_recovery(it, waiting);
}

/* Sinks a number into a heap of so many, whose children are in order. */
static void sink(uint64_t *heap, size_t at, size_t count) {
    uint64_t it = heap[at];
    for (size_t below; (below = 2 * at + 1) < count; at = below) {
        if (below + 1 < count && heap[below + 1] > heap[below]) below++;
        if (heap[below] <= it) break;
        heap[at] = heap[below];
    }
    heap[at] = it;
}

static void sort(uint64_t *numbers, size_t count) {
    for (size_t at = count / 2; at-- > 0;) sink(numbers, at, count);
    for (size_t last = count; last-- > 1;) {
        uint64_t greatest = numbers[0];
        numbers[0] = numbers[last];
        numbers[last] = greatest;
        sink(numbers, 0, last);
    }
}

/* The least of sorted numbers that so many of a hundred do not pass. */
static uint64_t percentile(const uint64_t *sorted, size_t count, size_t percent) { return count == 0 ? 0 : sorted[(count * percent + 99) / 100 - 1]; }

static void sum_waits(storm *it, uint64_t *phase_waits, uint32_t phase) {
    size_t count = 0;
    uint64_t *to = &it->sums[SUM_WAITS + 4 * phase];
    for (size_t i = 0; i < it->waits_count; i++)
        if (it->waits[i] % 4 == phase) phase_waits[count++] = it->waits[i] / 4;
    sort(phase_waits, count);
    to[0] = count;
    to[1] = percentile(phase_waits, count, 50);
    to[2] = percentile(phase_waits, count, 99);
    to[3] = percentile(phase_waits, count, 100);
}

const uint64_t *storm_sums(storm *it) {
    uint64_t *room = malloc((it->waits_count + 1) * sizeof *room);
    if (!room) return NULL;
    for (uint32_t phase = 0; phase < 3; phase++) sum_waits(it, room, phase);
    free(room);
    it->sums[SUM_LEFT] = it->sums[SUM_ASKED] - it->sums[SUM_DONE] - it->sums[SUM_FAILED];
    return it->sums;
}
