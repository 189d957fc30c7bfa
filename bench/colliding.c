/* Prints whole numbers of at most 9 digits that the standard library's hash with its fixed seed puts into one group under one tag: as
   many as are asked for. */
#include <stdint.h>
#include <stdio.h>
#include <stdlib.h>

static const uint64_t MULTIPLIER = 0x9e3779b97f4a7c15;

static uint64_t fold(uint64_t a, uint64_t b) {
    unsigned __int128 product = (unsigned __int128)a * b;
    return (uint64_t)product ^ (uint64_t)(product >> 64);
}

int main(int count, char **words) {
    int left = count > 1 ? atoi(words[1]) : 0;
    uint64_t before = fold(0x243f6a8885a308d3, MULTIPLIER ^ 16);
    for (uint64_t key = 1; key < 1000000000 && left > 0; key++) {
        uint64_t hash = fold(before ^ key, MULTIPLIER ^ 16);
        uint32_t half = (uint32_t)(hash ^ hash >> 32);
        if ((half & 511) == 77 && half >> 24 == 99) {
            printf("%llu\n", (unsigned long long)key);
            left--;
        }
    }
    return left > 0;
}
