/* Random numbers: xoshiro256**, seeded through splitmix64. The same seed and number give the same ones on any machine. */
#include "lockstep.h"

static uint64_t random_state[4];

static uint64_t splitmix(uint64_t *x) {
    uint64_t z = *x += 0x9E3779B97F4A7C15u;
    z = (z ^ z >> 30) * 0xBF58476D1CE4E5B9u;
    z = (z ^ z >> 27) * 0x94D049BB133111EBu;
    return z ^ z >> 31;
}

void seed_random(uint64_t seed, uint64_t number) {
    uint64_t x = seed;
    x = splitmix(&x) ^ number;
    for (size_t i = 0; i < 4; i++) random_state[i] = splitmix(&x);
}

static uint64_t rotate(uint64_t x, int by) { return x << by | x >> (64 - by); }

uint64_t draw(void) {
    uint64_t *s = random_state, drawn = rotate(s[1] * 5, 7) * 9, t = s[1] << 17;
    s[2] ^= s[0];
    s[3] ^= s[1];
    s[1] ^= s[2];
    s[0] ^= s[3];
    s[2] ^= t;
    s[3] = rotate(s[3], 45);
    return drawn;
}

uint64_t below(uint64_t n) { return draw() % n; }
int one_in(uint64_t n) { return below(n) == 0; }

void fill(uint8_t *bytes, size_t length) {
    for (size_t i = 0; i < length; i += 8) {
        uint64_t drawn = draw();
        for (size_t k = i; k < length && k < i + 8; k++, drawn >>= 8) bytes[k] = (uint8_t)drawn;
    }
}

void flip_bit(uint8_t *bytes, size_t bit) { bytes[bit / 8] ^= (uint8_t)(0x80 >> bit % 8); }
void flip_any_bit(uint8_t *bytes, size_t length) { flip_bit(bytes, below(8 * length)); }
