/*
 * A shared cache of open flows in C without turns, on the same words as the crates `pebr_words` and `pebr_roots`: the
 * epoch, each thread's status and each thread's shields on cache lines of their own, then the roots, four a set, and
 * behind them the slots, ten words each. A thread pins, loads and shields the four roots, checks its status, reads the
 * forty words, writes ten of a fresh slot, exchanges one root, takes its shields down and leaves. From 32 retired slots
 * on it collects; where it has no fresh slot, it ejects each thread that it finds in.
 */
#ifndef SLOTS_H
#define SLOTS_H

#include "sets.h"

enum { LINE = 16, BATCH = 32, MOST_SEATS = 64, OUT = 0, IN = 1, EJECTED = 2 };

struct slots {
    word *words;
    uint64_t sets, seats, each;
};

/* What a thread knows: its number, the epoch that it noted, its fresh and its retired slots, and the tags of these. */
struct seat {
    uint64_t number, noted;
    uint64_t *fresh, *retired, *tags;
    size_t fresh_count, retired_count, tag_count;
};

static inline word *status_of(const struct slots *slots, uint64_t seat)
{
    return slots->words + LINE * (seat + 1);
}

static inline word *shields_of(const struct slots *slots, uint64_t seat)
{
    return slots->words + LINE * (slots->seats + seat + 1);
}

static inline word *roots_of(const struct slots *slots, uint64_t set)
{
    return slots->words + LINE * (2 * slots->seats + 1) + ENTRIES * set;
}

static inline word *content_of(const struct slots *slots, uint64_t slot)
{
    return roots_of(slots, slots->sets) + WORDS * slot;
}

static inline int open_slots(struct slots *slots, uint64_t sets, uint64_t seats)
{
    slots->sets = sets;
    slots->seats = seats;
    slots->each = BATCH + ENTRIES * seats;
    size_t count = LINE * (2 * seats + 1) + ENTRIES * sets + WORDS * (ENTRIES * sets + seats * slots->each);
    size_t bytes = (count * sizeof(word) + 127) / 128 * 128;
    slots->words = aligned_alloc(128, bytes);
    if (slots->words == NULL) {
        return 0;
    }
    memset((void *)slots->words, 0, bytes);
    for (uint64_t root = 0; root < ENTRIES * sets; root++) {
        atomic_store(roots_of(slots, 0) + root, root);
    }
    return 1;
}

static inline int open_seat(const struct slots *slots, struct seat *seat, uint64_t number)
{
    memset(seat, 0, sizeof *seat);
    seat->number = number;
    seat->fresh = malloc(3 * slots->each * sizeof *seat->fresh);
    if (seat->fresh == NULL) {
        return 0;
    }
    seat->retired = seat->fresh + slots->each;
    seat->tags = seat->retired + slots->each;
    seat->fresh_count = slots->each;
    for (uint64_t k = 0; k < slots->each; k++) {
        seat->fresh[k] = ENTRIES * slots->sets + (number + 1) * slots->each - 1 - k;
    }
    return 1;
}

/* Whether every other thread was seen out or in a later epoch than the newest tag; with force, whoever wasn't is ejected. */
static inline int pass_all(const struct slots *slots, const struct seat *seat, int is_forced)
{
    uint64_t newest = seat->tags[seat->tag_count - 1];
    for (uint64_t other = 0; other < slots->seats; other++) {
        if (other == seat->number) {
            continue;
        }
        uint64_t status = atomic_load(status_of(slots, other));
        if ((status & 3) != IN || status >> 2 > newest) {
            continue;
        }
        if (!is_forced) {
            return 0;
        }
        atomic_compare_exchange_strong(status_of(slots, other), &status, status + EJECTED - IN);
    }
    return 1;
}

/* The slots under the shields of others stay retired; all other retired ones become fresh. */
static inline void give(const struct slots *slots, struct seat *seat)
{
    uint64_t kept[ENTRIES * MOST_SEATS];
    size_t kept_count = 0, left = 0;
    for (uint64_t other = 0; other < slots->seats; other++) {
        for (int k = 0; other != seat->number && k < ENTRIES; k++) {
            uint64_t shield = atomic_load(shields_of(slots, other) + k);
            if (shield != 0) {
                kept[kept_count++] = shield - 1;
            }
        }
    }
    seat->noted = atomic_load(slots->words);
    for (size_t i = 0; i < seat->retired_count; i++) {
        int is_kept = 0;
        for (size_t k = 0; k < kept_count; k++) {
            is_kept |= kept[k] == seat->retired[i];
        }
        if (is_kept) {
            seat->tags[left] = seat->tags[i];
            seat->retired[left++] = seat->retired[i];
        } else {
            seat->fresh[seat->fresh_count++] = seat->retired[i];
        }
    }
    seat->retired_count = seat->tag_count = left;
}

static inline void collect(const struct slots *slots, struct seat *seat, int is_forced)
{
    uint64_t epoch = seat->noted = atomic_load(slots->words);
    while (seat->tag_count < seat->retired_count) {
        seat->tags[seat->tag_count++] = epoch;
    }
    atomic_compare_exchange_strong(slots->words, &epoch, seat->noted + 1);
    if (seat->tag_count == 0 || pass_all(slots, seat, is_forced)) {
        give(slots, seat);
    }
}

/* One try. It tells whether a root was replaced; then `out` is whether what was there goes out, and `old` has it. */
static inline int try_slots(const struct slots *slots, struct seat *seat, word *roots, const uint64_t *own, uint64_t *old, int *out)
{
    uint64_t slot[ENTRIES], entries[ENTRIES][WORDS], kept[WORDS];
    word *status = status_of(slots, seat->number), *shields = shields_of(slots, seat->number);
    int is_put = 0;
    seat->noted = atomic_load(slots->words);
    atomic_store(status, 4 * seat->noted + IN);
    for (int k = 0; k < ENTRIES; k++) {
        slot[k] = atomic_load(roots + k);
        atomic_store(shields + k, slot[k] + 1);
    }
    if ((atomic_load(status) & 3) == IN) {
        for (int k = 0; k < ENTRIES; k++) {
            word *content = content_of(slots, slot[k]);
            for (int x = 0; x < WORDS; x++) {
                entries[k][x] = atomic_load(content + x);
            }
        }
        int place = choose(entries, own, kept, out);
        uint64_t fresh = seat->fresh[seat->fresh_count - 1], found = slot[place];
        word *content = content_of(slots, fresh);
        for (int x = 0; x < WORDS; x++) {
            atomic_store(content + x, kept[x]);
        }
        is_put = atomic_compare_exchange_strong(roots + place, &found, fresh);
        if (is_put) {
            seat->fresh_count--;
            seat->retired[seat->retired_count++] = slot[place];
            memcpy(old, entries[place], sizeof entries[place]);
        }
    }
    for (int k = 0; k < ENTRIES; k++) {
        atomic_store(shields + k, 0);
    }
    atomic_store(status, 4 * seat->noted + OUT);
    return is_put;
}

/* A packet's own fragment is metered through a seat. After three lost tries it is handed out itself. */
static inline void meter_by_slot(const struct slots *slots, struct seat *seat, const uint64_t *own, struct parts *parts)
{
    uint64_t old[WORDS];
    word *roots = roots_of(slots, set_of(own, slots->sets));
    int out;
    if (seat->retired_count >= BATCH) {
        collect(slots, seat, 0);
    }
    if (seat->fresh_count == 0) {
        collect(slots, seat, 1);
    }
    for (int tries = 0; tries < TRIES; tries++) {
        if (try_slots(slots, seat, roots, own, old, &out)) {
            if (out) {
                keep_part(parts, old);
            }
            return;
        }
    }
    keep_part(parts, own);
}

#endif
