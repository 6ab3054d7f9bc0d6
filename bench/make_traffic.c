/*
 * Writes a capture of PACKETS packets of conversations to standard output, of one of four kinds, from a seed.
 *
 *     make_traffic KIND PACKETS SEED
 *
 *     headers   some 18 packets a flow, of which at most 96 octets are captured
 *     frames    the same, captured whole: some 700 octets a packet
 *     scan      as headers, but nine of ten packets are a flow of their own, a TCP SYN
 *     thousand  as headers, but 1,000 flows in all
 *
 * A classic capture, little-endian, microseconds, Ethernet, 15,000 packets a second. A conversation has two flows, one
 * in each direction, and most are short: its number of packets has a long tail. 2,000 conversations go on at a time,
 * and the next packet is of any of them. 15 of 100 conversations are over IPv6, 20 of 100 over UDP. One of TCP begins
 * with SYN and ends with FIN. IPv4 headers have their checksums, segments and datagrams have none. The number of flows
 * that were begun goes to standard error.
 */
#include <math.h>
#include <stdint.h>
#include <stdio.h>
#include <stdlib.h>
#include <string.h>

enum { OPEN = 2000, MOST_SCANNED = 1 << 24 };

struct conversation {
    uint32_t number;
    uint32_t done;
    uint32_t packets;
    int six, udp;
};

static struct conversation open_ones[OPEN];
static uint32_t open_count = OPEN, begun, scanned;
static int is_endless;
static uint64_t state;

/* The next number of the seed (splitmix64). */
static uint64_t drawn(void)
{
    uint64_t value = state += 0x9e3779b97f4a7c15ull;
    value = (value ^ value >> 30) * 0xbf58476d1ce4e5b9ull;
    value = (value ^ value >> 27) * 0x94d049bb133111ebull;
    return value ^ value >> 31;
}

static int chance(int of_hundred)
{
    return (int)(drawn() % 100) < of_hundred;
}

/* How many packets a conversation has: at least 11, by a law of powers, some 36 in the mean. */
static uint32_t length_drawn(void)
{
    double share = (double)(drawn() >> 11) * 0x1p-53 + 0x1p-53;
    double length = 11.6 * pow(share, -0.75);
    return length < 200000 ? (uint32_t)length : 200000;
}

static void begin(struct conversation *one)
{
    one->number = begun++;
    one->done = 0;
    one->packets = is_endless ? UINT32_MAX : length_drawn();
    one->six = chance(15);
    one->udp = chance(20);
}

static void little(uint8_t *at, uint32_t value)
{
    for (int i = 0; i < 4; i++) {
        at[i] = value >> 8 * i & 255;
    }
}

static void big(uint8_t *at, int bytes, uint64_t value)
{
    for (int i = 0; i < bytes; i++) {
        at[i] = value >> 8 * (bytes - 1 - i) & 255;
    }
}

/* What a frame has of IP: the conversation's number, which side sends, ports, flags and octets of the payload. */
struct look {
    uint32_t number;
    int back, six, udp, syn_scan;
    uint16_t client_port, server_port, flags;
    uint32_t payload;
};

static void address(uint8_t *at, const struct look *look, int server)
{
    uint32_t host = server ? look->syn_scan ? 0xac100000 + look->number : 0x2d000000 + look->number % 20011
                           : look->syn_scan ? 0xc633640a : 0x0a000000 + look->number / 7 % 16127 + 2;
    if (look->six) {
        big(at, 8, server ? 0x2a00000010000000 : 0x20010db800010000);
        big(at + 8, 8, host);
    } else {
        big(at, 4, host);
    }
}

static void checksum(uint8_t *ip)
{
    uint32_t sum = 0;
    for (int i = 0; i < 20; i += 2) {
        sum += ip[i] << 8 | ip[i + 1];
    }
    sum = (sum & 0xffff) + (sum >> 16);
    sum = (sum & 0xffff) + (sum >> 16);
    big(ip + 10, 2, ~sum & 0xffff);
}

/* The IP header of a frame, and its length. */
static int ip_header(uint8_t *ip, const struct look *look, uint32_t payload)
{
    if (look->six) {
        big(ip, 4, 0x60000000);
        big(ip + 4, 2, payload);
        ip[6] = look->udp ? 17 : 6;
        ip[7] = 60;
        address(ip + 8, look, look->back);
        address(ip + 24, look, !look->back);
        return 40;
    }
    ip[0] = 0x45;
    big(ip + 2, 2, 20 + payload);
    ip[6] = 0x40;
    ip[8] = 60;
    ip[9] = look->udp ? 17 : 6;
    address(ip + 12, look, look->back);
    address(ip + 16, look, !look->back);
    checksum(ip);
    return 20;
}

/* The frame, at most 1,514 octets, and its length. */
static int frame(uint8_t *at, const struct look *look)
{
    int transport = look->udp ? 8 : 20;
    memset(at, 0, 128);
    big(at, 6, 0x020000000001 + look->back);
    big(at + 6, 6, 0x020000000002 - look->back);
    big(at + 12, 2, look->six ? 0x86dd : 0x0800);
    int front = 14 + ip_header(at + 14, look, transport + look->payload);
    uint8_t *segment = at + front;
    big(segment, 2, look->back ? look->server_port : look->client_port);
    big(segment + 2, 2, look->back ? look->client_port : look->server_port);
    if (look->udp) {
        big(segment + 4, 2, 8 + look->payload);
    } else {
        big(segment + 12, 2, 0x5000 | look->flags);
        big(segment + 14, 2, 502);
    }
    int length = front + transport + look->payload;
    return length < 60 ? 60 : length;
}

static struct look look_of_scan(void)
{
    uint32_t number = scanned++;
    struct look look = {.number = number / 16 % MOST_SCANNED, .syn_scan = 1, .flags = 2};
    static const uint16_t ports[16] = {443, 80, 22, 25, 53, 8080, 3389, 445, 23, 21, 3306, 5432, 8443, 110, 993, 5060};
    look.client_port = 40000 + drawn() % 20000;
    look.server_port = ports[number % 16];
    return look;
}

static struct look look_of(struct conversation *one)
{
    struct look look = {.number = one->number, .six = one->six, .udp = one->udp};
    look.client_port = 1024 + one->number % 60013;
    look.server_port = one->udp ? 53 + one->number % 3 * 195 : one->number % 4 != 0 ? 443 : 80;
    look.back = one->done == 0 ? 0 : one->done == 1 ? 1 : (int)(drawn() & 1);
    look.payload = drawn() & 1 ? 0 : 1000 + drawn() % 441;
    look.flags = one->done < 2 ? look.back ? 0x12 : 2 : one->done + 1 == one->packets ? 0x11 : look.payload != 0 ? 0x18 : 0x10;
    if (one->done < 2 && !one->udp) {
        look.payload = 0;
    }
    one->done++;
    return look;
}

static void write_packet(uint64_t number, const struct look *look, uint32_t most)
{
    static uint8_t record[16 + 2048];
    uint32_t length = frame(record + 16, look), captured = length < most ? length : most;
    little(record, 1700000000 + number / 15000);
    little(record + 4, number % 15000 * 1000000 / 15000);
    little(record + 8, captured);
    little(record + 12, length);
    fwrite(record, 1, 16 + captured, stdout);
}

int main(int count, char **words)
{
    int is_frames = count == 4 && strcmp(words[1], "frames") == 0, is_scan = count == 4 && strcmp(words[1], "scan") == 0;
    is_endless = count == 4 && strcmp(words[1], "thousand") == 0;
    if (!is_frames && !is_scan && !is_endless && !(count == 4 && strcmp(words[1], "headers") == 0)) {
        fprintf(stderr, "usage: make_traffic headers|frames|scan|thousand PACKETS SEED\n");
        return 2;
    }
    uint64_t packets = strtoull(words[2], NULL, 10);
    state = strtoull(words[3], NULL, 10);
    open_count = is_endless ? 500 : OPEN;
    for (uint32_t i = 0; i < open_count; i++) {
        begin(&open_ones[i]);
    }
    uint8_t header[24] = {0xd4, 0xc3, 0xb2, 0xa1, 2, 0, 4, 0};
    little(header + 16, is_frames ? 65535 : 96);
    little(header + 20, 1);
    fwrite(header, 1, sizeof header, stdout);
    for (uint64_t k = 0; k < packets; k++) {
        struct conversation *one = &open_ones[drawn() % open_count];
        struct look look = is_scan && drawn() % 10 != 0 ? look_of_scan() : look_of(one);
        write_packet(k, &look, is_frames ? 65535 : 96);
        if (one->done == one->packets) {
            begin(one);
        }
    }
    fprintf(stderr, "flows %u\n", 2 * begun + scanned);
    return fflush(stdout) == 0 && !ferror(stdout) ? 0 : 1;
}
