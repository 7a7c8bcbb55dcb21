// Prints names of nine letters that collide in a hash table of the kit (`indexmap`, with its fixed hash): collide PARTS COUNT
//
// A table compares names that have the first 8 bits of their hash in common and lie near each other, which those with four more bits in
// common do. PARTS is how many empty byte strings are hashed after the name: none for a name, two for a label of the root package.
#include <stdint.h>
#include <stdio.h>
#include <stdlib.h>
#include <string.h>

#define LETTERS 9
#define FIRST 0x243f6a8885a308d3u
#define MULTIPLIER 0x9e3779b97f4a7c15u

static uint64_t folded(uint64_t a, uint64_t b) {
    unsigned __int128 product = (unsigned __int128)a * b;
    return (uint64_t)product ^ (uint64_t)(product >> 64);
}

static uint64_t word(const char *letters) {
    uint64_t read;
    memcpy(&read, letters, sizeof read);
    return read;
}

static uint32_t hash(const char *name, int parts) {
    uint64_t state = folded(word(name) ^ (FIRST + LETTERS), word(name + LETTERS - 8) ^ MULTIPLIER);
    for (int part = 0; part < parts; part++)
        state = folded(state, MULTIPLIER);
    return (uint32_t)(state ^ state >> 32);
}

int main(int argc, char **argv) {
    if (argc != 3)
        return 2;
    int parts = atoi(argv[1]), left = atoi(argv[2]);
    for (uint64_t number = 0; left > 0; number++) {
        char name[LETTERS + 1] = {0};
        uint64_t rest = number;
        for (int i = 0; i < LETTERS; i++, rest /= 26)
            name[i] = 'a' + rest % 26;
        uint32_t found = hash(name, parts);
        if (found >> 24 == 1 && (found >> 10 & 15) == 0) {
            puts(name);
            left--;
        }
    }
}
