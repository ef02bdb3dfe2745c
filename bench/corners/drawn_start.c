/* Counts how much the keys of a hash table meet, under one start after another.

   Word: the kind of key. Standard input has the count of names, then the names, and then starts of
   32 bytes in hexadecimal, a line each. For each start a line goes to standard output: how many
   groups of slots were visited and how many keys were compared while the names were added in order.

   A key is hashed by SipHash-1-3 with both keys 0, over the start and then what the key writes. */

#include <stdint.h>
#include <stdio.h>
#include <stdlib.h>
#include <string.h>

typedef uint64_t u64;

enum { LANES = 12, LOAD = 9, LONGEST = 32, MOST_BYTES = 64 };

/* ---- SipHash */

struct sip {
    u64 v0, v1, v2, v3;
};

static inline u64 turned(u64 x, int by) { return x << by | x >> (64 - by); }

static inline void sip_round(struct sip *s) {
    s->v0 += s->v1, s->v2 += s->v3;
    s->v1 = turned(s->v1, 13) ^ s->v0, s->v3 = turned(s->v3, 16) ^ s->v2;
    s->v0 = turned(s->v0, 32);
    s->v2 += s->v1, s->v0 += s->v3;
    s->v1 = turned(s->v1, 17) ^ s->v2, s->v3 = turned(s->v3, 21) ^ s->v0;
    s->v2 = turned(s->v2, 32);
}

static inline void sip_word(struct sip *s, u64 m) {
    s->v3 ^= m;
    sip_round(s);
    s->v0 ^= m;
}

static u64 sip_end(struct sip s, const unsigned char *bytes, size_t length, size_t before) {
    size_t at = 0;
    u64 word;
    for (; length - at >= 8; at += 8) memcpy(&word, bytes + at, 8), sip_word(&s, word);
    word = (u64)((length + before) & 255) << 56;
    for (size_t i = 0; at + i < length; i++) word |= (u64)bytes[at + i] << 8 * i;
    sip_word(&s, word);
    s.v2 ^= 255;
    for (int i = 0; i < 3; i++) sip_round(&s);
    return s.v0 ^ s.v1 ^ s.v2 ^ s.v3;
}

/* ---- what the keys write */

struct key {
    unsigned char bytes[MOST_BYTES + LONGEST];
    size_t length;
};

static void add(struct key *key, const void *bytes, size_t length) {
    memcpy(key->bytes + key->length, bytes, length);
    key->length += length;
}

static void add_number(struct key *key, u64 number, size_t size) { add(key, &number, size); }

/* The whole words of eight bytes, then a word of the length and the bytes after them. */
static void add_name(struct key *key, const char *name) {
    size_t length = strlen(name), whole = length / 8 * 8;
    u64 last = length;
    add(key, name, whole);
    for (size_t i = whole; i < length; i++) last = last << 8 | (unsigned char)name[i];
    add_number(key, last, 8);
}

static u64 word_of(const char *name, size_t length, size_t from, size_t count) {
    u64 word = 0;
    for (size_t i = from; i < from + count; i++)
        word = word << 9 | (i == 0 ? length : (u64)(unsigned char)name[i - 1]);
    return word;
}

/* A name as a definition section spells it: whole words, its length, the parts of the last word. */
static void add_spelled(struct key *key, const char *name) {
    size_t length = strlen(name);
    add_number(key, length / 4, 8);
    for (size_t i = 0; i < length / 4; i++) add_number(key, word_of(name, length, 4 * i, 4), 8);
    add_number(key, length, 8);
    add_number(key, word_of(name, length, length / 4 * 4, length % 4 + 1), 8);
}

/* Two words of 36 bits as one number of 16 bytes. The name is that number in hexadecimal. */
static void add_descriptor(struct key *key, const char *name) {
    u64 high = 0, low = 0;
    sscanf(name, "%2llx%16llx", (unsigned long long *)&high, (unsigned long long *)&low);
    add_number(key, low, 8);
    add_number(key, high, 8);
}

static void add_key(struct key *key, const char *kind, const char *name) {
    key->length = 0;
    if (strcmp(kind, "descriptor") == 0) {
        add_descriptor(key, name);
        return;
    }
    if (strcmp(kind, "spelled") == 0) {
        add_spelled(key, name);
        return;
    }
    if (strcmp(kind, "link") == 0) add_number(key, 3 << 24, 8);
    add_name(key, name);
    if (strcmp(kind, "place") == 0) add(key, ">u", 2);
    if (strcmp(kind, "link") == 0) add_name(key, "");
    if (strcmp(kind, "ring") == 0) add_number(key, 4, 1);
}

/* ---- the table */

struct group {
    unsigned char tags[LANES];
    uint32_t used, overflow;
};

struct cost {
    u64 groups, keys;
};

static void add_to_table(struct group *table, size_t groups, uint32_t hash, struct cost *cost) {
    unsigned char tag = hash >> 24 > 1 ? hash >> 24 : 1;
    for (size_t at = hash & (groups - 1);; at = (at + 1) & (groups - 1)) {
        struct group *group = &table[at];
        cost->groups++;
        for (uint32_t i = 0; i < group->used; i++) cost->keys += group->tags[i] == tag;
        if (group->used < LANES) {
            group->tags[group->used++] = tag;
            return;
        }
        group->overflow |= (uint32_t)1 << (tag & 31);
    }
}

static struct cost cost_of(struct sip start, const struct key *keys, size_t count, size_t groups) {
    struct group *table = calloc(groups, sizeof *table);
    struct cost cost = {0, 0};
    for (size_t i = 0; i < count; i++) {
        u64 hash = sip_end(start, keys[i].bytes, keys[i].length, 32);
        add_to_table(table, groups, (uint32_t)(hash ^ hash >> 32), &cost);
    }
    free(table);
    return cost;
}

static int start_of(const char *line, struct sip *start) {
    *start = (struct sip){0x736f6d6570736575, 0x646f72616e646f6d,
                          0x6c7967656e657261, 0x7465646279746573};
    for (int i = 0; i < 4; i++) {
        u64 word = 0;
        for (int j = 0; j < 8; j++) {
            unsigned byte;
            if (sscanf(line + 16 * i + 2 * j, "%2x", &byte) != 1) return 0;
            word |= (u64)byte << 8 * j;
        }
        sip_word(start, word);
    }
    return 1;
}

int main(int words, char **word) {
    size_t count, groups = 1;
    char line[128];
    if (words != 2 || scanf("%zu\n", &count) != 1) return fprintf(stderr, "word: KIND\n"), 2;
    while (LOAD * groups < count) groups *= 2;
    struct key *keys = calloc(count, sizeof *keys);
    for (size_t i = 0; i < count && scanf("%32s", line) == 1; i++) add_key(&keys[i], word[1], line);
    struct sip start;
    while (scanf("%64s", line) == 1 && start_of(line, &start)) {
        struct cost cost = cost_of(start, keys, count, groups);
        printf("%llu %llu\n", (unsigned long long)cost.groups, (unsigned long long)cost.keys);
        fflush(stdout);
    }
    return 0;
}
