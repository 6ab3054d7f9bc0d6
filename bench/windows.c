/*
 * Reads a capture from standard input in windows, as `bench_checks windows` does, and meters it by WORKERS threads,
 * which draw pieces of 256 records of a window from one counter. A window is read by reads as large as it has room, its
 * records are found, and what is left after the last of them moves to the front.
 *
 *     windows WORKERS WINDOW SETS < CAPTURE
 *
 * Packets go through the cache of `sets.h`. It writes how many records there are, how many of them are packets, and the
 * octets of these.
 */
#include "sets.h"
#include <pthread.h>
#include <stdio.h>
#include <unistd.h>

enum { PIECE = 256, MOST_WORKERS = 64 };

/* The fragments that a thread was handed. */
struct parts {
    uint64_t (*list)[WORDS];
    size_t count, room;
};

static inline void keep_part(struct parts *parts, const uint64_t *words)
{
    if (parts->count == parts->room) {
        parts->room = parts->room != 0 ? 2 * parts->room : 64;
        parts->list = realloc(parts->list, parts->room * sizeof *parts->list);
        if (parts->list == NULL) {
            exit(3);
        }
    }
    memcpy(parts->list[parts->count++], words, sizeof *parts->list);
}

struct worker {
    pthread_t thread;
    uint64_t number, records, packets, octets;
    struct parts parts;
    char apart[128];
};

static struct capture capture;
static struct turns cache;
static uint8_t *window;
static size_t window_size, window_end;
static uint32_t *offsets;
static size_t offset_count;
static struct worker workers[MOST_WORKERS];
static uint64_t worker_count;
static struct {
    char before[128];
    atomic_size_t next;
    char behind[128];
} draw;

/* Reads until the window is full or the input at its end, of which it tells. */
static int fill(void)
{
    while (window_end < window_size) {
        ssize_t count = read(0, window + window_end, window_size - window_end);
        if (count < 0) {
            exit(1);
        }
        if (count == 0) {
            return 1;
        }
        window_end += count;
    }
    return 0;
}

/* Finds the records from a place on, and tells the place behind the last. */
static size_t find_records(size_t at)
{
    offset_count = 0;
    while (window_end - at >= RECORD_HEADER) {
        size_t captured = four(&capture, window + at + 8);
        if (captured > MOST_CAPTURED) {
            exit(1);
        }
        if (window_end - at - RECORD_HEADER < captured) {
            break;
        }
        offsets[offset_count++] = at;
        at += RECORD_HEADER + captured;
    }
    return at;
}

static void meter_record(struct worker *worker, const uint8_t *record)
{
    struct packet packet;
    uint64_t own[WORDS];
    worker->records++;
    if (packet_of(&capture, record, &packet)) {
        worker->packets++;
        worker->octets += packet.octets;
        part_of(&packet, own);
        meter_by_turn(&cache, worker->number, own, &worker->parts);
    }
}

static void *work(void *of)
{
    struct worker *worker = of;
    size_t start;
    while ((start = PIECE * atomic_fetch_add(&draw.next, 1)) < offset_count) {
        size_t end = start + PIECE < offset_count ? start + PIECE : offset_count;
        for (size_t k = start; k < end; k++) {
            meter_record(worker, window + offsets[k]);
        }
    }
    return NULL;
}

/* All threads meter the records that were found. */
static void work_all(void)
{
    atomic_store(&draw.next, 0);
    for (uint64_t i = 1; i < worker_count; i++) {
        if (pthread_create(&workers[i].thread, NULL, work, &workers[i]) != 0) {
            exit(3);
        }
    }
    work(&workers[0]);
    for (uint64_t i = 1; i < worker_count; i++) {
        pthread_join(workers[i].thread, NULL);
    }
}

static void meter_input(void)
{
    int ended = fill();
    if (!header_of(window, window_end, &capture)) {
        exit(1);
    }
    size_t at = FILE_HEADER;
    for (;;) {
        size_t behind = find_records(at);
        work_all();
        if (ended) {
            return;
        }
        window_end -= behind;
        memmove(window, window + behind, window_end);
        at = 0;
        ended = fill();
    }
}

int main(int count, char **words)
{
    if (count != 4) {
        fprintf(stderr, "usage: windows WORKERS WINDOW SETS\n");
        return 2;
    }
    worker_count = strtoull(words[1], NULL, 10);
    window_size = strtoull(words[2], NULL, 10);
    if (worker_count < 1 || worker_count > MOST_WORKERS || window_size < RECORD_HEADER + MOST_CAPTURED + FILE_HEADER) {
        return 2;
    }
    window = malloc(window_size);
    offsets = malloc(window_size / RECORD_HEADER * sizeof *offsets);
    if (window == NULL || offsets == NULL || !open_turns(&cache, strtoull(words[3], NULL, 10))) {
        return 3;
    }
    for (uint64_t i = 0; i < worker_count; i++) {
        workers[i].number = i;
    }
    meter_input();
    uint64_t records = 0, packets = 0, octets = 0;
    for (uint64_t i = 0; i < worker_count; i++) {
        records += workers[i].records;
        packets += workers[i].packets;
        octets += workers[i].octets;
    }
    printf("records %llu packets %llu octets %llu\n", (unsigned long long)records, (unsigned long long)packets,
           (unsigned long long)octets);
    return 0;
}
