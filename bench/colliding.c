/* Names of seven letters that fall together in a table with the seed of all texts: colliding COUNT BITS [each | text] [SIZE:NUMBER ..]
   prints so many, each on a line, whose hashes have so many low bits of zeros. In front of the name the key has these numbers of so many
   bytes; the name is hashed as a whole, with `each` as its length and then each of its bytes, with `text` as a whole with a byte behind.
   colliding pairs COUNT BITS FIRST STEP MOST prints, for so many numbers from FIRST on, each STEP behind the last, a number below MOST:
   those pairs of numbers of four and of eight bytes fall together.
   colliding gaps COUNT BITS FIRST STEP UNIT [SIZE:NUMBER ..] prints, for so many numbers of four bytes behind FIRST, by how many UNITs
   more than STEP each stands behind the last: keys of these, with such numbers in front, begin in an eighth of a table whose numbers
   have so many bits.
   It knows how such a table hashes a key; where the table's hash changes, the keys no longer fall together, and what is told of them says
   nothing. */
#include <stdint.h>
#include <stdio.h>
#include <stdlib.h>
#include <string.h>

static const uint64_t FACTOR = 0x9e3779b97f4a7c15ULL, BEGIN = 0x243f6a8885a308d3ULL;
static const char LETTERS[] = "abcdefghijklmnopqrstuvwxyz0123456789";

enum { LENGTH = 7 };

/* The state behind a write of at most eight bytes, given as one number. */
static uint64_t after(uint64_t state, uint64_t word, uint64_t size) {
    unsigned __int128 product = (unsigned __int128)(state ^ word) * (FACTOR ^ 2 * size);
    return (uint64_t)product ^ (uint64_t)(product >> 64);
}

/* At most eight bytes as one number, by reads that may overlap. */
static uint64_t word_of(const unsigned char *bytes, uint64_t size) {
    uint32_t front, back;
    if (size < 4) return size == 0 ? 0 : bytes[0] | (uint64_t)bytes[size / 2] << 8 | (uint64_t)bytes[size - 1] << 16;
    memcpy(&front, bytes, 4);
    memcpy(&back, bytes + size - 4, 4);
    return (uint64_t)back << 32 | front;
}

/* A number is written as its bytes, the lowest first. */
static uint64_t after_number(uint64_t state, uint64_t number, uint64_t size) {
    unsigned char bytes[8];
    memcpy(bytes, &number, 8);
    return after(state, word_of(bytes, size), size);
}

enum { WHOLE, EACH, TEXT };

static uint64_t after_name(uint64_t state, const char *name, int how) {
    const unsigned char *bytes = (const unsigned char *)name;
    if (how != EACH) {
        state = after(state, word_of(bytes, LENGTH), LENGTH);
        return how == TEXT ? after_number(state, 0xff, 1) : state;
    }
    state = after_number(state, LENGTH, 8);
    for (int at = 0; at < LENGTH; at++) state = after(state, word_of(bytes + at, 1), 1);
    return state;
}

static uint32_t mask_of(const char *bits) { return ((uint32_t)1 << atoi(bits)) - 1; }

static int falls(uint64_t state, uint32_t mask) { return ((uint32_t)(state ^ state >> 32) & mask) == 0; }

static int pairs(char **words) {
    uint32_t mask = mask_of(words[1]);
    uint64_t first = strtoull(words[2], 0, 10), step = strtoull(words[3], 0, 10), most = strtoull(words[4], 0, 10);
    for (int at = 0, count = atoi(words[0]); at < count; at++) {
        uint64_t front = after_number(BEGIN, first + at * step, 4), number = 0;
        while (number < most - 1 && !falls(after_number(front, number, 8), mask)) number++;
        printf("%llu\n", (unsigned long long)number);
    }
    return 0;
}

/* What a key has in front, of which each word tells the bytes and the number; 0 where a word doesn't. */
static uint64_t behind(char **words, int count) {
    uint64_t state = BEGIN;
    for (int at = 0; at < count; at++) {
        char *number = strchr(words[at], ':');
        if (number == NULL) return 0;
        state = after_number(state, strtoull(number + 1, 0, 10), strtoull(words[at], 0, 10));
    }
    return state;
}

static int gaps(char **words, int fronts) {
    uint32_t mask = mask_of(words[1]);
    uint64_t number = strtoull(words[2], 0, 10), step = strtoull(words[3], 0, 10), unit = strtoull(words[4], 0, 10);
    uint64_t front = behind(words + 5, fronts);
    for (int count = atoi(words[0]); count > 0; count--) {
        int gap = 0;
        uint64_t state = after_number(front, number + step, 4);
        while (((uint32_t)(state ^ state >> 32) & mask) > mask / 8) state = after_number(front, number + step + ++gap * unit, 4);
        number += step + gap * unit;
        printf("%d\n", gap);
    }
    return 0;
}

int main(int count, char **words) {
    if (count == 7 && strcmp(words[1], "pairs") == 0) return pairs(words + 2);
    if (count >= 7 && strcmp(words[1], "gaps") == 0) return gaps(words + 2, count - 7);
    if (count < 3) return 2;
    int how = count > 3 && strcmp(words[3], "each") == 0 ? EACH : count > 3 && strcmp(words[3], "text") == 0 ? TEXT : WHOLE;
    int fronts = 3 + (how != WHOLE);
    uint64_t begin = behind(words + fronts, count > fronts ? count - fronts : 0);
    if (begin == 0) return 2;
    uint32_t mask = mask_of(words[2]);
    char name[LENGTH + 1] = "x";
    int left = atoi(words[1]);
    for (uint64_t number = 0; left > 0; number++) {
        uint64_t rest = number;
        for (int at = 1; at < LENGTH; at++, rest /= 36) name[at] = LETTERS[rest % 36];
        name[0] = LETTERS[(23 + rest) % 26];
        if (falls(after_name(begin, name, how), mask)) {
            puts(name);
            left--;
        }
    }
    return 0;
}
