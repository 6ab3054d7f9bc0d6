/*
 * Writes a capture of PACKETS packets of KEYS keys to standard output.
 *
 *     make_capture PACKETS KEYS
 *
 * A classic capture, little-endian, microseconds, Ethernet. Packet k has the time 1,000 s and k tenths of a
 * millisecond, and the key number (k * 2654435761) mod KEYS, so that the keys come equally often and in scattered
 * order. Of eight keys four are UDP over IPv4, three TCP over IPv4 and one UDP over IPv6. Checksums are left at 0. With
 * KEYS 0 no packet is IP: each is an ARP request of 60 octets.
 */
#include <stdint.h>
#include <stdio.h>
#include <stdlib.h>
#include <string.h>

static void little(uint8_t *at, uint32_t value)
{
    for (int i = 0; i < 4; i++) {
        at[i] = value >> 8 * i & 255;
    }
}

static void big(uint8_t *at, int bytes, uint64_t value)
{
    for (int i = 0; i < bytes; i++) {
        at[i] = value >> 8 * (bytes - 1 - i) & 255;
    }
}

/* The transport header of a key, and its length. */
static int transport(uint8_t *at, int tcp, uint32_t key)
{
    big(at, 2, 1024 + key % 60000);
    big(at + 2, 2, tcp ? 443 : 53);
    if (tcp) {
        big(at + 12, 2, 0x5010);
        return 20;
    }
    big(at + 4, 2, 8);
    return 8;
}

/* An ARP request, and its length. */
static int request(uint8_t *at)
{
    memset(at, 0, 128);
    memset(at, 0xff, 6);
    big(at + 6, 6, 0x020000000001);
    big(at + 12, 4, 0x08060001);
    big(at + 16, 6, 0x080006040001);
    return 60;
}

/* The Ethernet frame of a key, and its length. */
static int frame(uint8_t *at, uint32_t key)
{
    int tcp = key % 8 >= 4 && key % 8 < 7;
    int six = key % 8 == 7;
    uint8_t *ip = at + 14;
    memset(at, 0, 128);
    big(at, 6, 0x020000000002);
    big(at + 6, 6, 0x020000000001);
    big(at + 12, 2, six ? 0x86dd : 0x0800);
    if (six) {
        int length = transport(ip + 40, tcp, key);
        big(ip, 4, 0x60000000);
        big(ip + 4, 2, length);
        ip[6] = 17;
        ip[7] = 64;
        big(ip + 8, 4, 0x20010db8);
        big(ip + 20, 4, key);
        big(ip + 24, 4, 0x20010db8);
        ip[39] = 1;
        return 14 + 40 + length;
    }
    int length = transport(ip + 20, tcp, key);
    ip[0] = 0x45;
    big(ip + 2, 2, 20 + length);
    ip[8] = 64;
    ip[9] = tcp ? 6 : 17;
    big(ip + 12, 4, 0x0a000000 + key);
    big(ip + 16, 4, 0xc0000201);
    return 14 + 20 + length;
}

int main(int count, char **words)
{
    if (count != 3) {
        fprintf(stderr, "usage: make_capture PACKETS KEYS\n");
        return 2;
    }
    uint64_t packets = strtoull(words[1], NULL, 10);
    uint64_t keys = strtoull(words[2], NULL, 10);
    if (keys > 1 << 24) {
        fprintf(stderr, "KEYS is from 0 to 16777216\n");
        return 2;
    }
    uint8_t header[24] = {0xd4, 0xc3, 0xb2, 0xa1, 2, 0, 4, 0};
    little(header + 16, 262144);
    little(header + 20, 1);
    fwrite(header, 1, sizeof header, stdout);
    for (uint64_t k = 0; k < packets; k++) {
        uint8_t record[16 + 128];
        int length = keys == 0 ? request(record + 16) : frame(record + 16, k * 2654435761u % keys);
        little(record, 1000 + k / 10000);
        little(record + 4, k % 10000 * 100);
        little(record + 8, length);
        little(record + 12, length);
        fwrite(record, 1, 16 + length, stdout);
    }
    return fflush(stdout) == 0 && !ferror(stdout) ? 0 : 1;
}
