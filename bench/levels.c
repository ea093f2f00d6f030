// The levels of a line by the same rules in plain C, written from the rules and not from the Rattle code: reads a line's numbers as
// crates/bench does, fills 4095 lines of 4095 words and writes the same checksum.
#include <stdio.h>
#include "word.h"

static pattern pattern_at(const uint16_t *n) {
    pattern a = {n[0], n[1], {0}, {0}};
    for (int i = 0; i < 18; i++) a.toggles[i] = n[2 + i];
    return a;
}

static pulse pulse_at(const uint16_t *n) { return (pulse){n[0] == 1, n[1], n[2], n[3]}; }

static span span_at(const uint16_t *n) { return (span){n[0], n[1], n[2]}; }

int main(void) {
    static uint16_t n[84], out[4095];
    for (int k = 0; k < 84; k++)
        if (scanf("%hu", &n[k]) != 1) return 1;
    line l = {0};
    l.mode = n[49] == 1 ? SWEEP : n[49] == 2 ? MULTIPLIER : PLAIN;
    l.second_acts = n[53] == 1;
    l.second = pattern_at(n + 24);
    l.start = n[50];
    l.repetitions = n[51];
    l.mask1 = (mask){n[52] % 2 == 1, n[20], n[21]};
    l.mask2 = (mask){n[52] / 2 % 2 == 1, n[22], n[23]};
    for (int k = 0; k < 5; k++) l.gates[k] = pulse_at(n + 54 + 4 * k);
    l.subck = pulse_at(n + 74);
    l.mshut = span_at(n + 78);
    l.strobe = span_at(n + 81);
    uint64_t sum = 0;
    for (int i = 0; i < 4095; i++) {
        l.pattern = pattern_at(n);
        l.pattern.levels = (n[0] % 64 + i % 64) % 64;
        l.odd = odd_outputs(&l.pattern);
        l.origin = i * 4095;
        for (int j = 0; j < 4095; j++) out[j] = word_of(&l, j);
        for (int j = 0; j < 4095; j++) sum += (uint64_t)out[j] * (j + 1);
    }
    printf("%llu\n", (unsigned long long)sum);
    return 0;
}
