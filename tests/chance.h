/* chance.h: the random numbers of the tests. A run is repeated by its seed. */
#ifndef CHANCE_H
#define CHANCE_H

#include <stddef.h>
#include <stdint.h>

extern uint64_t seed, chance_state;

/* The seed is the word, or the time where the word is missing or empty. Begins the test's line: "TEST: seed SEED: ". */
void begin_chance(const char *test, const char *word);

/* since then */
double seconds(void);

static inline uint64_t chance(void) {
    uint64_t z = chance_state += 0x9e3779b97f4a7c15u;
    z = (z ^ z >> 30) * 0xbf58476d1ce4e5b9u;
    z = (z ^ z >> 27) * 0x94d049bb133111ebu;
    return z ^ z >> 31;
}

static inline uint64_t below(uint64_t n) {
    return chance() % n;
}

/* a number from low to high, each size of number about as often as any other */
uint64_t spread(uint64_t low, uint64_t high);

void fill(void *memory, size_t length);

#endif
