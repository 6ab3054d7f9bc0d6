/*
 * A shared cache of open flows in C: sets of four entries of ten words, with one turn for each set, on the same words as the
 * crate `turn_cache`: the turn and the forty words of entries lie on cache lines of their own, 64 words a set. It makes the
 * same loads, stores and exchanges: one exchange for the turn, forty loads, a store for each word of one entry that changes,
 * and one for the turn.
 *
 * A fragment is ten words: the five of its key, then packets, octets, first time, last time and flags.
 */
#ifndef SETS_H
#define SETS_H

#include "packets.h"
#include <stdatomic.h>
#include <stdlib.h>

typedef _Atomic uint64_t word;

enum { ENTRIES = 4, WORDS = 10, PACKETS = 5, OCTETS = 6, FIRST = 7, LAST = 8, FLAGS = 9, TRIES = 3 };
enum { SET_WORDS = 64, SET_CONTENT = 16 };

static const uint64_t idle_time = 300000, active_time = 1800000;

/* What a thread does with a fragment that it is handed: the program that includes this file says. */
struct parts;
static inline void keep_part(struct parts *parts, const uint64_t *words);

static inline void part_of(const struct packet *packet, uint64_t *words)
{
    memcpy(words, packet->key, sizeof packet->key);
    words[PACKETS] = 1;
    words[OCTETS] = packet->octets;
    words[FIRST] = words[LAST] = packet->time;
    words[FLAGS] = packet->flags;
}

static inline uint64_t set_of(const uint64_t *key, uint64_t sets)
{
    uint64_t hash = 0;
    for (int i = 0; i < 5; i++) {
        hash = (hash ^ key[i]) * 0x9e3779b97f4a7c15ull;
    }
    return (hash >> 32) % sets;
}

static inline int same_key(const uint64_t *one, const uint64_t *other)
{
    return ((one[0] ^ other[0]) | (one[1] ^ other[1]) | (one[2] ^ other[2]) | (one[3] ^ other[3]) | (one[4] ^ other[4])) == 0;
}

/* Whether a packet with FIN or RST ended the fragment's flow. */
static inline int is_closed(const uint64_t *part)
{
    return (part[0] >> 32 & 255) == 6 && (part[FLAGS] & 5) != 0;
}

/* Whether two fragments of one key can be one. */
static inline int can_join(const uint64_t *one, const uint64_t *other)
{
    uint64_t first = one[FIRST] < other[FIRST] ? one[FIRST] : other[FIRST];
    uint64_t last = one[LAST] > other[LAST] ? one[LAST] : other[LAST];
    if ((is_closed(one) && one[LAST] < other[LAST]) || (is_closed(other) && other[LAST] < one[LAST])) {
        return 0;
    }
    return one[FIRST] <= other[LAST] + idle_time && other[FIRST] <= one[LAST] + idle_time && last - first <= active_time;
}

static inline void join(uint64_t *part, const uint64_t *other)
{
    part[PACKETS] += other[PACKETS];
    part[OCTETS] += other[OCTETS];
    part[FIRST] = part[FIRST] < other[FIRST] ? part[FIRST] : other[FIRST];
    part[LAST] = part[LAST] > other[LAST] ? part[LAST] : other[LAST];
    part[FLAGS] |= other[FLAGS];
}

/* Which entry takes the fragment, what it has then, and whether what it had goes out. */
static inline int choose(uint64_t entries[ENTRIES][WORDS], const uint64_t *own, uint64_t *kept, int *out)
{
    *out = 0;
    for (int i = 0; i < ENTRIES; i++) {
        if (entries[i][PACKETS] != 0 && same_key(entries[i], own) && can_join(entries[i], own)) {
            memcpy(kept, entries[i], sizeof entries[i]);
            join(kept, own);
            return i;
        }
    }
    memcpy(kept, own, sizeof entries[0]);
    for (int i = 0; i < ENTRIES; i++) {
        if (entries[i][PACKETS] != 0 && same_key(entries[i], own)) {
            *out = 1;
            return i;
        }
    }
    for (int i = 0; i < ENTRIES; i++) {
        if (entries[i][PACKETS] == 0) {
            return i;
        }
    }
    int oldest = 0;
    for (int i = 1; i < ENTRIES; i++) {
        oldest = entries[i][LAST] < entries[oldest][LAST] ? i : oldest;
    }
    *out = 1;
    return oldest;
}

struct turns {
    word *words;
    uint64_t sets;
};

static inline int open_turns(struct turns *turns, uint64_t sets)
{
    turns->sets = sets;
    turns->words = aligned_alloc(128, sets * SET_WORDS * sizeof(word));
    if (turns->words != NULL) {
        memset((void *)turns->words, 0, sets * SET_WORDS * sizeof(word));
    }
    return turns->words != NULL;
}

/* A packet's own fragment is metered by the thread of a number. After three lost tries it is handed out itself. */
static inline void meter_by_turn(struct turns *turns, uint64_t number, const uint64_t *own, struct parts *parts)
{
    uint64_t entries[ENTRIES][WORDS], kept[WORDS];
    word *set = turns->words + SET_WORDS * set_of(own, turns->sets);
    int out, tries = 0;
    for (uint64_t none = 0; !atomic_compare_exchange_strong(set, &none, number + 1); none = 0) {
        if (++tries == TRIES) {
            keep_part(parts, own);
            return;
        }
    }
    word *content = set + SET_CONTENT;
    for (int i = 0; i < ENTRIES; i++) {
        for (int k = 0; k < WORDS; k++) {
            entries[i][k] = atomic_load(content + WORDS * i + k);
        }
    }
    int place = choose(entries, own, kept, &out);
    content += WORDS * place;
    atomic_store(content + PACKETS, kept[PACKETS]);
    for (int k = 0; k < WORDS; k++) {
        if (k != PACKETS && kept[k] != entries[place][k]) {
            atomic_store(content + k, kept[k]);
        }
    }
    atomic_store(set, 0);
    if (out) {
        keep_part(parts, entries[place]);
    }
}

#endif
