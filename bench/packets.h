/*
 * A classic capture as C reads it: its file header, and the packet of a record.
 *
 * It reads Ethernet with tags, raw IP and Linux cooked packets; IPv4; IPv6 with its extension headers; TCP and UDP.
 */
#ifndef PACKETS_H
#define PACKETS_H

#include <stdint.h>
#include <string.h>

enum { FILE_HEADER = 24, RECORD_HEADER = 16, MOST_CAPTURED = 262144 };

struct capture {
    int swapped;
    int nano;
    uint32_t link;
};

/* The key is five words: version, protocol and ports in the first, then the halves of both addresses. */
struct packet {
    uint64_t key[5];
    uint64_t time;
    uint32_t octets;
    uint32_t flags;
};

static inline uint32_t two(const uint8_t *at)
{
    return at[0] << 8 | at[1];
}

static inline uint64_t many(const uint8_t *at, int bytes)
{
    uint64_t value = 0;
    for (int i = 0; i < bytes; i++) {
        value = value << 8 | at[i];
    }
    return value;
}

/* Four bytes in the order of the capture. */
static inline uint32_t four(const struct capture *capture, const uint8_t *at)
{
    uint32_t value;
    memcpy(&value, at, sizeof value);
    return capture->swapped ? __builtin_bswap32(value) : value;
}

/* The file header of a capture, if these bytes begin with one that is read. */
static inline int header_of(const uint8_t *bytes, size_t count, struct capture *capture)
{
    if (count < FILE_HEADER) {
        return 0;
    }
    capture->swapped = bytes[0] == 0xa1;
    uint32_t magic = four(capture, bytes);
    capture->nano = magic == 0xa1b23c4d;
    capture->link = four(capture, bytes + 20);
    return (magic == 0xa1b2c3d4 || magic == 0xa1b23c4d)
        && (capture->link == 1 || capture->link == 101 || capture->link == 113);
}

static inline int transport(const uint8_t *at, const uint8_t *end, uint8_t protocol, struct packet *packet)
{
    packet->key[0] |= (uint64_t)protocol << 32;
    if (protocol == 6) {
        if (end - at < 14) {
            return 0;
        }
        packet->flags = two(at + 12) & 0xfff;
        packet->key[0] |= many(at, 4);
    } else if (protocol == 17) {
        if (end - at < 4) {
            return 0;
        }
        packet->key[0] |= many(at, 4);
    }
    return 1;
}

/* The end of the IP packet: what is captured of its octets. */
static inline const uint8_t *ip_end(const uint8_t *ip, const uint8_t *end, uint32_t octets)
{
    return (uint32_t)(end - ip) < octets ? end : ip + octets;
}

static inline int version4(const uint8_t *ip, const uint8_t *end, uint32_t whole, struct packet *packet)
{
    if (end - ip < 20 || ip[0] >> 4 != 4 || (ip[0] & 15) < 5) {
        return 0;
    }
    uint32_t header = (ip[0] & 15) * 4;
    uint32_t octets = two(ip + 2) != 0 ? two(ip + 2) : whole > header ? whole : header;
    if (end - ip < (int)header || octets < header || octets > 16777215) {
        return 0;
    }
    packet->octets = octets;
    packet->key[0] = 4ull << 40;
    packet->key[2] = many(ip + 12, 4);
    packet->key[4] = many(ip + 16, 4);
    if ((two(ip + 6) & 0x1fff) != 0) {
        packet->key[0] |= (uint64_t)ip[9] << 32;
        return 1;
    }
    return transport(ip + header, ip_end(ip, end, octets), ip[9], packet);
}

static inline int version6(const uint8_t *ip, const uint8_t *end, uint32_t whole, struct packet *packet)
{
    if (end - ip < 40 || ip[0] >> 4 != 6) {
        return 0;
    }
    uint32_t payload = two(ip + 4);
    uint8_t next = ip[6];
    uint32_t octets = payload != 0 || next == 59 ? 40 + payload : whole > 40 ? whole : 40;
    if (octets > 16777215) {
        return 0;
    }
    packet->octets = octets;
    packet->key[0] = 6ull << 40;
    for (int word = 0; word < 4; word++) {
        packet->key[1 + word] = many(ip + 8 + 8 * word, 8);
    }
    end = ip_end(ip, end, octets);
    const uint8_t *at = ip + 40;
    while (next == 0 || next == 43 || next == 60 || next == 51 || next == 44) {
        if (end - at < 2) {
            return 0;
        }
        int length = next == 44 ? 8 : next == 51 ? (at[1] + 2) * 4 : (at[1] + 1) * 8;
        if (end - at < length) {
            return 0;
        }
        if (next == 44 && two(at + 2) >> 3 != 0) {
            packet->key[0] |= (uint64_t)at[0] << 32;
            return 1;
        }
        next = at[0];
        at += length;
    }
    return transport(at, end, next, packet);
}

/* The packet of a record of the capture, if it has one. */
static inline int packet_of(const struct capture *capture, const uint8_t *record, struct packet *packet)
{
    uint32_t captured = four(capture, record + 8), fraction = four(capture, record + 4), kind = 0;
    const uint8_t *at = record + RECORD_HEADER, *end = at + captured;
    if (fraction >= (capture->nano ? 1000000000u : 1000000u)) {
        return 0;
    }
    memset(packet, 0, sizeof *packet);
    packet->time = four(capture, record) * 1000ull + fraction / (capture->nano ? 1000000 : 1000);
    if (capture->link == 101) {
        if (captured < 1) {
            return 0;
        }
        kind = at[0] >> 4 == 4 ? 0x0800 : at[0] >> 4 == 6 ? 0x86dd : 0;
    } else {
        uint32_t front = capture->link == 1 ? 14 : 16;
        if (captured < front) {
            return 0;
        }
        at += front;
        kind = two(at - 2);
        for (int tags = 0; tags < 2 && (kind == 0x8100 || kind == 0x88a8); tags++) {
            if (end - at < 4) {
                return 0;
            }
            at += 4;
            kind = two(at - 2);
        }
    }
    uint32_t front = at - (record + RECORD_HEADER), original = four(capture, record + 12);
    uint32_t whole = original > front ? original - front : 0;
    return kind == 0x0800 ? version4(at, end, whole, packet) : kind == 0x86dd ? version6(at, end, whole, packet) : 0;
}

#endif
