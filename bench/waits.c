/* The planted program of bench/waits. Both functions store two words next to each other, and then
load one. In `fitting` it is the second word. In `spanning` it is the end of the first word and the
beginning of the second, so many processors wait until both stores are done. */
#include <stdint.h>
#include <stdio.h>
#include <string.h>

enum { ROUNDS = 60000000 };

static unsigned char room[16];

static inline uint64_t next(uint64_t word, int from) {
    uint64_t second = word >> 3;
    memcpy(room, &word, 8);
    memcpy(room + 8, &second, 8);
    /* The compiler must not know what is loaded. */
    __asm__ volatile("" ::: "memory");
    memcpy(&word, room + from, 8);
    return word * 3 + 1;
}

__attribute__((noinline)) static uint64_t spanning(uint64_t word) {
    for (int round = 0; round < ROUNDS; round++) word = next(word, 4);
    return word;
}

__attribute__((noinline)) static uint64_t fitting(uint64_t word) {
    for (int round = 0; round < ROUNDS; round++) word = next(word, 8);
    return word;
}

int main(int count, char **arguments) {
    (void)arguments;
    uint64_t words = spanning(count) ^ fitting(count);
    return printf("%llu\n", (unsigned long long)words) < 0;
}
