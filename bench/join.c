/*
 * Makes streams of flow records, and sorts what such streams have, for bench/join.sh.
 *
 *     join make RECORDS SEED
 *     join sort FILE..
 *
 * `make` writes a stream of RECORDS records to standard output, as `romtyalig meter` lays it out: in order of last
 * time and key, an hour of UDP, 15 of 100 over IPv6. Three of four have a key of their own, the fourth one that the
 * streams of all other seeds have at the same place, so at the same time: these become one.
 *
 * `sort` is the least that any joiner has to do: it reads the messages of the files, each file in one piece, takes
 * the fields of each record into a list, sorts that by key and first time with the C library's qsort, and writes the
 * records in this order in messages of at most 1,400 octets. It makes no two records one, finds no reasons, and stops
 * at any other layout.
 */
#include <stdint.h>
#include <stdio.h>
#include <stdlib.h>
#include <string.h>

enum { TEMPLATES = 116, MOST = 1400 };

struct record {
    uint8_t key[38]; /* version, source, destination, both of 16 octets, ports, protocol */
    uint16_t flags;
    uint64_t packets, octets, first, last;
    uint8_t reason;
};

static uint64_t state;

/* The next number of the seed (splitmix64). */
static uint64_t drawn(void)
{
    uint64_t value = state += 0x9e3779b97f4a7c15ull;
    value = (value ^ value >> 30) * 0xbf58476d1ce4e5b9ull;
    value = (value ^ value >> 27) * 0x94d049bb133111ebull;
    return value ^ value >> 31;
}

static void big(uint8_t *at, int bytes, uint64_t value)
{
    for (int i = 0; i < bytes; i++) {
        at[i] = value >> 8 * (bytes - 1 - i) & 255;
    }
}

static uint64_t number(const uint8_t *at, int bytes)
{
    uint64_t value = 0;
    for (int i = 0; i < bytes; i++) {
        value = value << 8 | at[i];
    }
    return value;
}

/* Writing. */

static uint8_t message[MOST];
static size_t length, set_at;
static uint32_t sequence, in_message, export_time;

static void begin(void)
{
    big(message, 2, 10);
    big(message + 4, 4, export_time);
    big(message + 8, 4, sequence);
    big(message + 12, 4, 1);
    length = 16;
    set_at = 0;
    in_message = 0;
}

static void end(void)
{
    big(message + 2, 2, length);
    if (fwrite(message, 1, length, stdout) != length) {
        exit(3);
    }
    sequence += in_message;
}

static void write_templates(void)
{
    static const uint16_t fields[2][22] = {
        {8, 4, 12, 4, 7, 2, 11, 2, 4, 1, 6, 2, 2, 8, 1, 8, 152, 8, 153, 8, 136, 1},
        {27, 16, 28, 16, 7, 2, 11, 2, 4, 1, 6, 2, 2, 8, 1, 8, 152, 8, 153, 8, 136, 1},
    };
    begin();
    big(message + 16, 2, 2);
    big(message + 18, 2, 100);
    for (int six = 0; six < 2; six++) {
        uint8_t *at = message + 20 + 48 * six;
        big(at, 2, 256 + six);
        big(at + 2, 2, 11);
        for (int i = 0; i < 22; i++) {
            big(at + 4 + 2 * i, 2, fields[six][i]);
        }
    }
    length = TEMPLATES;
    end();
    begin();
}

static void write_record(const struct record *record)
{
    int six = record->key[0] == 6, width = six ? 16 : 4;
    size_t size = 40 + 2 * width, head = set_at == 0 || number(message + set_at, 2) != 256u + six ? 4 : 0;
    if (length + head + size > MOST) {
        end();
        begin();
        head = 4;
    }
    if (head != 0) {
        set_at = length;
        big(message + set_at, 2, 256 + six);
        length += 4;
    }
    uint8_t *at = message + length;
    memcpy(at, record->key + 1, width);
    memcpy(at + width, record->key + 17, width);
    at += 2 * width;
    memcpy(at, record->key + 33, 5);
    big(at + 5, 2, record->flags);
    big(at + 7, 8, record->packets);
    big(at + 15, 8, record->octets);
    big(at + 23, 8, record->first);
    big(at + 31, 8, record->last);
    at[39] = record->reason;
    length += size;
    big(message + set_at + 2, 2, length - set_at);
    in_message++;
}

static void write_rest(void)
{
    if (in_message != 0) {
        end();
    }
    if (fflush(stdout) != 0) {
        exit(3);
    }
}

/* Making. */

static void make(uint64_t records, uint64_t seed)
{
    uint64_t begun = 1700000000000, span = 3600000;
    state = seed;
    uint64_t clock = begun + span * (records - 1) / records;
    export_time = clock / 1000;
    write_templates();
    for (uint64_t place = 0; place < records; place++) {
        int is_shared = place % 4 == 3;
        uint64_t own = is_shared ? place : place + (seed << 32), draw = drawn();
        struct record record = {.packets = 1 + draw % 64, .octets = 40 + draw % 4096};
        uint64_t held = state;
        state = own;
        uint64_t one = drawn(), other = drawn(), ports = drawn();
        state = held;
        int six = ports % 100 < 15, width = six ? 16 : 4;
        record.key[0] = six ? 6 : 4;
        big(record.key + 1, 8, one);
        big(record.key + 17, 8, other);
        if (six) {
            big(record.key + 9, 8, own);
            big(record.key + 25, 8, own + 1);
        } else {
            memset(record.key + 1 + width, 0, 12);
            memset(record.key + 17 + width, 0, 12);
        }
        big(record.key + 33, 4, ports >> 16);
        record.key[37] = 17;
        record.last = begun + span * place / records;
        record.reason = clock - record.last > 300000 ? 1 : 4;
        record.first = record.last - draw % 10000;
        write_record(&record);
    }
    write_rest();
}

/* Reading and sorting. */

static struct record *list;
static size_t count, room;

static void stop(const char *name)
{
    fprintf(stderr, "%s: not laid out as expected\n", name);
    exit(9);
}

static void take(const uint8_t *at, int six)
{
    if (count == room) {
        room = room == 0 ? 1024 : 2 * room;
        list = realloc(list, room * sizeof *list);
        if (list == NULL) {
            exit(8);
        }
    }
    struct record *record = &list[count++];
    int width = six ? 16 : 4;
    memset(record, 0, sizeof *record);
    record->key[0] = six ? 6 : 4;
    memcpy(record->key + 1, at, width);
    memcpy(record->key + 17, at + width, width);
    at += 2 * width;
    memcpy(record->key + 33, at, 5);
    record->flags = number(at + 5, 2);
    record->packets = number(at + 7, 8);
    record->octets = number(at + 15, 8);
    record->first = number(at + 23, 8);
    record->last = number(at + 31, 8);
    record->reason = at[39];
}

static void take_message(const uint8_t *at, size_t size, const char *name)
{
    for (size_t set = 16; set < size;) {
        if (size - set < 4) {
            stop(name);
        }
        uint64_t id = number(at + set, 2), bytes = number(at + set + 2, 2), each = id == 256 ? 48 : 72;
        int is_flows = id == 256 || id == 257;
        if (bytes < 4 || bytes > size - set || (is_flows ? (bytes - 4) % each != 0 : id != 2)) {
            stop(name);
        }
        for (size_t place = 4; is_flows && place < bytes; place += each) {
            take(at + set + place, id == 257);
        }
        set += bytes;
    }
}

static void take_file(const char *name)
{
    FILE *file = fopen(name, "rb");
    if (file == NULL || fseek(file, 0, SEEK_END) != 0) {
        exit(1);
    }
    size_t size = ftell(file);
    rewind(file);
    uint8_t *octets = malloc(size + 1);
    if (octets == NULL || fread(octets, 1, size, file) != size) {
        exit(1);
    }
    for (size_t at = 0; at < size;) {
        size_t bytes = size - at < 16 ? 0 : number(octets + at + 2, 2);
        if (bytes < 16 || bytes > size - at || number(octets + at, 2) != 10) {
            stop(name);
        }
        take_message(octets + at, bytes, name);
        at += bytes;
    }
    free(octets);
    fclose(file);
}

static int by_key_and_time(const void *one, const void *other)
{
    const struct record *left = one, *right = other;
    int order = memcmp(left->key, right->key, sizeof left->key);
    return order != 0 ? order : (left->first > right->first) - (left->first < right->first);
}

static void sort(int files, char **names)
{
    for (int file = 0; file < files; file++) {
        take_file(names[file]);
    }
    uint64_t clock = 0;
    for (size_t place = 0; place < count; place++) {
        clock = list[place].last > clock ? list[place].last : clock;
    }
    export_time = clock / 1000;
    qsort(list, count, sizeof *list, by_key_and_time);
    write_templates();
    for (size_t place = 0; place < count; place++) {
        write_record(&list[place]);
    }
    write_rest();
}

int main(int words, char **word)
{
    if (words == 4 && strcmp(word[1], "make") == 0 && strtoull(word[2], NULL, 10) != 0) {
        make(strtoull(word[2], NULL, 10), strtoull(word[3], NULL, 10));
    } else if (words > 2 && strcmp(word[1], "sort") == 0) {
        sort(words - 2, word + 2);
    } else {
        fprintf(stderr, "usage: join make RECORDS SEED | join sort FILE..\n");
        return 2;
    }
    return 0;
}
