#include "random.h"

struct random random_of(uint64_t number) {
    /* far apart for numbers that are close, and never 0 */
    struct random random = {(number + 1) * UINT64_C(0x9e3779b97f4a7c15) | 1};
    for (int i = 0; i < 4; i++)
        any_number(&random);
    return random;
}

uint64_t any_number(struct random *random) {
    random->state ^= random->state << 13;
    random->state ^= random->state >> 7;
    random->state ^= random->state << 17;
    return random->state;
}

size_t below(struct random *random, size_t bound) { return any_number(random) % bound; }

bool one_in(struct random *random, size_t bound) { return below(random, bound) == 0; }

size_t wide_number(struct random *random, size_t usual) {
    switch (below(random, 12)) {
    case 0:
        return any_number(random);
    case 1:
        return SIZE_MAX - below(random, 3);
    case 2:
        return below(random, 2000);
    default:
        return below(random, usual + 1);
    }
}
