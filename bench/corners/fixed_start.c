/* Searches for names that meet in a hash table whose hash has a fixed start: a hasher that
   multiplies each written piece, up to 8 bytes of it, to 128 bits and joins the halves by xor.

   Words: KIND COUNT GROUPS. Names go to standard output, a line each. Two names meet where they
   begin at the same group of slots and have the same tag of 8 bits. GROUPS is the count of groups
   of the table when it has all COUNT names, a power of two.

   Descriptors are numbers of 72 bits, in hexadecimal. They meet where they begin at the same group:
   there are so many of them that the groups alone make a chain long enough. */

#include <stdint.h>
#include <stdio.h>
#include <stdlib.h>
#include <string.h>

typedef uint64_t u64;

static const u64 MULTIPLIER = 0x9e3779b97f4a7c15, START = 0x243f6a8885a308d3;
static const char FIRST[] = "abcdefghijklmnopqrstuvwxyzABCDEFGHIJKLMNOPQRSTUVWXYZ";
static const char LATER[] = "abcdefghijklmnopqrstuvwxyzABCDEFGHIJKLMNOPQRSTUVWXYZ0123456789_";
enum { LENGTH = 7 };

static inline u64 joined(u64 a, u64 b) {
    unsigned __int128 product = (unsigned __int128)a * b;
    return (u64)product ^ (u64)(product >> 64);
}

static inline u64 write8(u64 state, u64 value) { return joined(state ^ value, MULTIPLIER ^ 16); }

static inline u64 write4(u64 state, u64 value) {
    return joined(state ^ (value | value << 32), MULTIPLIER ^ 8);
}

static inline u64 write1(u64 state, u64 value) {
    return joined(state ^ value * 0x10101, MULTIPLIER ^ 2);
}

/* ---- the kinds of keys: what is written before a name, and after it */

static u64 before_name(u64 state) { return write8(state, LENGTH); }
static u64 after_name(u64 state) { return state; }

/* A segment of the directory >u. */
static u64 before_place(u64 state) {
    return before_name(write1(write1(write8(state, 2), '>'), 'u'));
}

/* A link to a segment: the name, an empty entry, no number, type 3, section text, no modifier. */
static u64 after_link(u64 state) {
    return write1(write8(write1(write4(write8(state, 0), 0), 3), 0), 0);
}

/* A name in ring 4. */
static u64 after_ring(u64 state) { return write1(state, 4); }

struct kind {
    const char *name;
    u64 (*before)(u64), (*after)(u64);
};

static const struct kind KINDS[] = {
    {"name", before_name, after_name},
    {"link", before_name, after_link},
    {"ring", before_name, after_ring},
    {"place", before_place, after_name},
};

/* ---- the search */

static long left;
static u64 groups;
static char text[LENGTH + 1];

static void note(u64 hash) {
    uint32_t folded = (uint32_t)(hash ^ hash >> 32);
    if (folded >> 24 > 1 || (folded & (groups - 1)) != 0 || left == 0) return;
    puts(text);
    left--;
}

static void search(const struct kind *kind, u64 state, int at) {
    const char *letters = at == 0 ? FIRST : LATER;
    for (const char *letter = letters; *letter && left; letter++) {
        text[at] = *letter;
        u64 next = write1(state, (u64)*letter);
        if (at + 1 == LENGTH) note(kind->after(next));
        else search(kind, next, at + 1);
    }
}

/* A name as a definition section spells it: its length and 7 characters in two words. */
static u64 word(const char *parts, u64 first) {
    return first << 27 | (u64)parts[0] << 18 | (u64)parts[1] << 9 | (u64)parts[2];
}

static void search_last(u64 state, int at) {
    for (const char *letter = LATER; *letter && left; letter++) {
        text[at] = *letter;
        if (at + 1 == LENGTH) note(write8(state, word(text + 4, (u64)text[3])));
        else search_last(state, at + 1);
    }
}

static void search_spelled(int at) {
    for (const char *letter = at == 0 ? FIRST : LATER; *letter && left; letter++) {
        text[at] = *letter;
        if (at < 2) search_spelled(at + 1);
        else search_last(write8(write8(write8(START, 1), word(text, LENGTH)), LENGTH), 3);
    }
}

/* Two words of 36 bits as one number: 16 bytes, which are written at once. */
static void search_descriptors(void) {
    for (u64 i = 1; left; i++) {
        u64 low = i * 0xd1342543de82ef95, high = i >> 20 & 255;
        u64 hash = joined(low ^ (START + 16), high ^ MULTIPLIER);
        if (((uint32_t)(hash ^ hash >> 32) & (groups - 1)) != 0) continue;
        printf("%02llx%016llx\n", (unsigned long long)high, (unsigned long long)low);
        left--;
    }
}

int main(int count, char **words) {
    if (count != 4) return fprintf(stderr, "words: KIND COUNT GROUPS\n"), 2;
    left = atol(words[2]);
    groups = strtoull(words[3], 0, 10);
    if (strcmp(words[1], "spelled") == 0) return search_spelled(0), left > 0;
    if (strcmp(words[1], "descriptor") == 0) return search_descriptors(), left > 0;
    for (size_t i = 0; i < sizeof KINDS / sizeof *KINDS; i++)
        if (strcmp(words[1], KINDS[i].name) == 0) {
            search(&KINDS[i], KINDS[i].before(START), 0);
            return left > 0;
        }
    return fprintf(stderr, "no such kind of key: %s\n", words[1]), 2;
}
