/* Random numbers that depend on a seed alone. */
#ifndef RANDOM_H
#define RANDOM_H

#include <stdbool.h>
#include <stdint.h>

struct random {
    uint64_t state;
};

/* SplitMix64, of Steele, Lea and Flood. */
static inline uint64_t random_next(struct random *random)
{
    uint64_t z = random->state += UINT64_C(0x9e3779b97f4a7c15);
    z = (z ^ z >> 30) * UINT64_C(0xbf58476d1ce4e5b9);
    z = (z ^ z >> 27) * UINT64_C(0x94d049bb133111eb);
    return z ^ z >> 31;
}

/* The numbers of case number `number` under a seed: no case needs another. */
static inline struct random random_of_case(uint64_t seed, uint64_t number)
{
    struct random random = {seed};
    random.state = random_next(&random) ^ number * UINT64_C(0xd1342543de82ef95);
    random_next(&random);
    return random;
}

/* A number below `bound`, which is not 0. */
static inline uint32_t below(struct random *random, uint32_t bound)
{
    return (uint32_t)((random_next(random) >> 32) * bound >> 32);
}

/* A number from `least` to `most`. */
static inline uint32_t between(struct random *random, uint32_t least, uint32_t most)
{
    return least + below(random, most - least + 1);
}

/* True this many times in a thousand. */
static inline bool chance(struct random *random, uint32_t thousandths)
{
    return below(random, 1000) < thousandths;
}

#endif
