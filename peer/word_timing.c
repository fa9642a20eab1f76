/* The plain loop that bench.sh compares the proved cost of a word with: standard
   input and output are those of the program word_timing, mode c. */
#include <stdint.h>
#include <stdio.h>

#define TURNS 20000

static uint64_t cost(uint32_t h, uint32_t s, uint32_t t, uint32_t w, const uint8_t *word, size_t n)
{
    uint64_t sum = 0;
    if (h > 1000000 || s > 1000000 || t > 1000000 || w > 1000000 || n > 65536)
        return 4;
    for (size_t i = 0; i < n; i++)
        switch (word[i]) {
        case 'H': sum += h; break;
        case 'S': sum += s; break;
        case 'T': sum += t; break;
        case 'W': sum += w; break;
        default: return 15;
        }
    return (sum + 999) / 1000;
}

int main(void)
{
    static uint8_t word[65536];
    uint64_t sum = 0;
    getchar();
    size_t n = fread(word, 1, sizeof word, stdin);
    for (uint64_t i = 0; i < TURNS; i++)
        sum += cost(i % 1000, 20, 30000, 40, word, n);
    printf("%llu\n", (unsigned long long)sum);
}
