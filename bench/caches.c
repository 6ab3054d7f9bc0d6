/*
 * How long the caches of `sets.h` and `slots.h` take for a packet. The packets of the capture of standard input are
 * read into memory; then THREADS threads meter them at the same time through one cache, each of them every THREADS-th
 * piece of 256 packets, as the program `bench_checks pace` does.
 *
 *     caches turn|pebr THREADS SETS < CAPTURE
 *
 * What it took, in nanoseconds a packet from start to end, goes to standard error. The packets of fragments that are handed out
 * are added up. Together with those of the cache's entries at the end they must be all packets, else the status is 1.
 */
#include "slots.h"
#include <pthread.h>
#include <stdio.h>
#include <time.h>

enum { PIECE = 256 };

/* The packets of all fragments that a thread was handed. */
struct parts {
    uint64_t packets;
};

static inline void keep_part(struct parts *parts, const uint64_t *words)
{
    parts->packets += words[PACKETS];
}

/*
 * A packet in memory as `bench_checks pace` holds it: the fields of the public type of packets, in as many bytes and at the same
 * places. A fragment's words are made of them for each packet, as there.
 */
struct held {
    uint64_t number;
    struct {
        unsigned __int128 source, destination;
        uint8_t version, protocol;
        uint16_t source_port, destination_port;
    } key;
    uint64_t time;
    uint32_t octets;
    uint16_t flags;
};

_Static_assert(sizeof(struct held) == 80, "as many bytes as there");

struct runner {
    pthread_t thread;
    uint64_t number;
    struct seat seat;
    struct parts parts;
    char apart[128];
};

static struct held *packets;
static size_t packet_count;
static struct runner runners[MOST_SEATS];
static uint64_t runner_count;
static struct turns turns;
static struct slots slots;
static int is_turn;

static unsigned __int128 address(const uint64_t *halves)
{
    return (unsigned __int128)halves[0] << 64 | halves[1];
}

static void hold(struct held *held, const struct packet *packet, uint64_t number)
{
    held->number = number;
    held->key.version = packet->key[0] >> 40;
    held->key.source = address(packet->key + 1);
    held->key.destination = address(packet->key + 3);
    held->key.protocol = packet->key[0] >> 32;
    held->key.source_port = packet->key[0] >> 16;
    held->key.destination_port = packet->key[0];
    held->time = packet->time;
    held->octets = packet->octets;
    held->flags = packet->flags;
}

/* The words of the fragment of this one packet. */
static inline void words_of(const struct held *held, uint64_t *words)
{
    uint64_t ports = (uint64_t)held->key.source_port << 16 | held->key.destination_port;
    words[0] = (uint64_t)held->key.version << 40 | (uint64_t)held->key.protocol << 32 | ports;
    words[1] = held->key.source >> 64;
    words[2] = held->key.source;
    words[3] = held->key.destination >> 64;
    words[4] = held->key.destination;
    words[PACKETS] = 1;
    words[OCTETS] = held->octets;
    words[FIRST] = words[LAST] = held->time;
    words[FLAGS] = held->flags;
}

static void read_packets(void)
{
    static uint8_t record[RECORD_HEADER + MOST_CAPTURED];
    struct capture capture;
    struct packet packet;
    size_t room = 1 << 16;
    uint64_t number = 0;
    packets = malloc(room * sizeof *packets);
    if (packets == NULL || fread(record, 1, FILE_HEADER, stdin) != FILE_HEADER || !header_of(record, FILE_HEADER, &capture)) {
        exit(1);
    }
    while (fread(record, 1, RECORD_HEADER, stdin) == RECORD_HEADER) {
        size_t captured = four(&capture, record + 8);
        if (captured > MOST_CAPTURED || fread(record + RECORD_HEADER, 1, captured, stdin) != captured) {
            exit(1);
        }
        if (packet_of(&capture, record, &packet)) {
            hold(packets + packet_count, &packet, number);
            packet_count++;
        }
        number++;
        if (packet_count == room) {
            room *= 2;
            packets = realloc(packets, room * sizeof *packets);
            if (packets == NULL) {
                exit(3);
            }
        }
    }
}

static void run_piece(struct runner *runner, size_t start, size_t end)
{
    uint64_t own[WORDS];
    if (is_turn) {
        for (size_t k = start; k < end; k++) {
            words_of(&packets[k], own);
            meter_by_turn(&turns, runner->number, own, &runner->parts);
        }
    } else {
        for (size_t k = start; k < end; k++) {
            words_of(&packets[k], own);
            meter_by_slot(&slots, &runner->seat, own, &runner->parts);
        }
    }
}

static void *run(void *of)
{
    struct runner *runner = of;
    for (size_t start = runner->number * PIECE; start < packet_count; start += runner_count * PIECE) {
        run_piece(runner, start, start + PIECE < packet_count ? start + PIECE : packet_count);
    }
    return NULL;
}

static void run_all(void)
{
    for (uint64_t i = 1; i < runner_count; i++) {
        if (pthread_create(&runners[i].thread, NULL, run, &runners[i]) != 0) {
            exit(3);
        }
    }
    run(&runners[0]);
    for (uint64_t i = 1; i < runner_count; i++) {
        pthread_join(runners[i].thread, NULL);
    }
}

/* The packets of all fragments, those of the cache among them. */
static uint64_t packets_kept(uint64_t sets)
{
    uint64_t sum = 0;
    for (uint64_t i = 0; i < runner_count; i++) {
        sum += runners[i].parts.packets;
    }
    for (uint64_t entry = 0; entry < ENTRIES * sets; entry++) {
        word *content = is_turn ? turns.words + SET_WORDS * (entry / ENTRIES) + SET_CONTENT + WORDS * (entry % ENTRIES)
                                : content_of(&slots, atomic_load(roots_of(&slots, 0) + entry));
        sum += atomic_load(content + PACKETS);
    }
    return sum;
}

int main(int count, char **words)
{
    is_turn = count == 4 && strcmp(words[1], "turn") == 0;
    if (!is_turn && !(count == 4 && strcmp(words[1], "pebr") == 0)) {
        fprintf(stderr, "usage: caches turn|pebr THREADS SETS\n");
        return 2;
    }
    runner_count = strtoull(words[2], NULL, 10);
    uint64_t sets = strtoull(words[3], NULL, 10);
    if (runner_count < 1 || runner_count > MOST_SEATS || sets < 1 || sets > 65536) {
        return 2;
    }
    read_packets();
    if (is_turn ? !open_turns(&turns, sets) : !open_slots(&slots, sets, runner_count)) {
        return 3;
    }
    for (uint64_t i = 0; i < runner_count; i++) {
        runners[i].number = i;
        if (!is_turn && !open_seat(&slots, &runners[i].seat, i)) {
            return 3;
        }
    }
    struct timespec start, end;
    clock_gettime(CLOCK_MONOTONIC, &start);
    run_all();
    clock_gettime(CLOCK_MONOTONIC, &end);
    double took = 1e9 * (double)(end.tv_sec - start.tv_sec) + (double)(end.tv_nsec - start.tv_nsec);
    fprintf(stderr, "%.1f\n", packet_count != 0 ? took / (double)packet_count : 0);
    return packets_kept(sets) != packet_count;
}
