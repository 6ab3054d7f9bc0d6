/*
 * What a meter has to do at least: reads a classic capture from standard input, reads the headers of its packets and sorts
 * the packets by key and time with the C library's qsort. It writes the numbers of packets and keys and the sum of octets.
 *
 *     baseline < CAPTURE
 *
 * It cuts no records and writes no stream.
 */
#include "packets.h"
#include <stdio.h>
#include <stdlib.h>

static int by_key(const struct packet *a, const struct packet *b)
{
    for (int word = 0; word < 5; word++) {
        if (a->key[word] != b->key[word]) {
            return a->key[word] < b->key[word] ? -1 : 1;
        }
    }
    return 0;
}

static int by_key_and_time(const void *left, const void *right)
{
    const struct packet *a = left, *b = right;
    int order = by_key(a, b);
    if (order != 0) {
        return order;
    }
    return a->time < b->time ? -1 : a->time > b->time;
}

/* Standard input to its end. */
static uint8_t *read_all(size_t *length)
{
    size_t room = 1 << 16, held = 0;
    uint8_t *bytes = malloc(room);
    for (;;) {
        if (bytes == NULL) {
            exit(3);
        }
        size_t got = fread(bytes + held, 1, room - held, stdin);
        held += got;
        if (got == 0) {
            *length = held;
            return bytes;
        }
        if (held == room) {
            room *= 2;
            bytes = realloc(bytes, room);
        }
    }
}

/* The length of the record at a place, and 0 where none is whole. */
static size_t record_length(const struct capture *capture, const uint8_t *bytes, size_t length, size_t at)
{
    if (length - at < RECORD_HEADER) {
        return 0;
    }
    size_t captured = four(capture, bytes + at + 8);
    return length - at - RECORD_HEADER < captured ? 0 : RECORD_HEADER + captured;
}

int main(void)
{
    struct capture capture;
    size_t length, records = 0, packets = 0, keys = 0, step;
    uint8_t *bytes = read_all(&length);
    if (!header_of(bytes, length, &capture)) {
        return 1;
    }
    for (size_t at = FILE_HEADER; (step = record_length(&capture, bytes, length, at)) != 0; at += step) {
        records++;
    }
    struct packet *list = malloc(records * sizeof *list + 1);
    if (list == NULL) {
        return 3;
    }
    for (size_t at = FILE_HEADER; (step = record_length(&capture, bytes, length, at)) != 0; at += step) {
        packets += packet_of(&capture, bytes + at, list + packets);
    }
    qsort(list, packets, sizeof *list, by_key_and_time);
    uint64_t octets = 0;
    for (size_t i = 0; i < packets; i++) {
        keys += i == 0 || by_key(&list[i - 1], &list[i]) != 0;
        octets += list[i].octets;
    }
    printf("packets %zu keys %zu octets %llu\n", packets, keys, (unsigned long long)octets);
    return 0;
}
