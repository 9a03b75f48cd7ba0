/* Numbers that look random and are the same in each run: a generator for each case. */
#ifndef RANDOM_H
#define RANDOM_H

#include <stdbool.h>
#include <stddef.h>
#include <stdint.h>

struct random {
    uint64_t state;
};

/* Returns the generator of a case. */
struct random random_of(uint64_t number);

/* Returns any number. */
uint64_t any_number(struct random *random);

/* Returns a number below `bound`, which is not 0. */
size_t below(struct random *random, size_t bound);

/* Returns true in one of `bound` calls, on average. */
bool one_in(struct random *random, size_t bound);

/* Returns a number that is mostly at most `usual`, and at times a great one or any. */
size_t wide_number(struct random *random, size_t usual);

#endif
