// The word of a line at a pixel in plain C, by the newest rules only, written from them and not from the Rattle code: the programs here share it.
#include <stdbool.h>
#include <stdint.h>

enum { UNUSED = 4095 };
enum mode { PLAIN, SWEEP, MULTIPLIER };

typedef struct { uint16_t levels, length, toggles[18], pairs[4]; } pattern;
typedef struct { bool on; uint16_t freeze, resume; } mask;
typedef struct { bool acts; uint16_t level, toggle1, toggle2; } pulse;
typedef struct { uint16_t level, from, to; } span;

typedef struct {
    enum mode mode;
    pattern pattern;
    uint16_t odd; // the outputs with one or three used toggles, by odd_outputs
    uint16_t start;
    uint32_t origin;
    uint16_t repetitions;
    mask mask1, mask2;
    bool second_acts;
    pattern second;
    pulse gates[5], subck;
    span mshut, strobe;
} line;

// Which outputs a whole run flips, in plain and sweep: those with an odd number of used toggles.
static uint16_t odd_outputs(const pattern *a) {
    uint16_t odd = 0;
    for (int i = 0; i < 18; i++)
        if (a->toggles[i] < a->length) odd ^= 1 << i / 3;
    return odd;
}

// The second pattern: from the pixel equal to its length, a flip for each used toggle at or below pixel - length.
static unsigned second_level(const pattern *a, int k, uint64_t p) {
    unsigned level = a->levels >> k & 1;
    uint64_t t = p - a->length;
    for (int i = 0; i < 3; i++) {
        uint16_t x = a->toggles[3 * k + i];
        if (x != UNUSED && x <= t) level ^= 1;
    }
    return level;
}

// The first pattern: plain from the line's first pixel, sweep and multiplier from the region's. In plain and sweep a run takes over the level the last one
// ended with, and after the last run the level stays.
static unsigned first_level(const line *l, int k, uint64_t p) {
    const pattern *a = &l->pattern;
    unsigned level = a->levels >> k & 1;
    uint64_t q = l->mode == PLAIN ? p : l->origin + p;
    if (q < l->start) return level;
    uint64_t t = q - l->start;
    if (l->mode == MULTIPLIER) {
        for (int i = 0; i < 3; i++) {
            uint16_t x = a->toggles[3 * k + i];
            if (x != UNUSED && (uint64_t)x * a->length <= t) level ^= 1;
        }
    } else if (t < (uint64_t)l->repetitions * a->length) {
        uint64_t u = t % a->length;
        level ^= l->odd >> k & t / a->length & 1;
        for (int i = 0; i < 3; i++) {
            uint16_t x = a->toggles[3 * k + i];
            if (x < a->length && x <= u) level ^= 1;
        }
    } else {
        level ^= l->odd >> k & l->repetitions & 1;
    }
    return level;
}

static unsigned v_level(const line *l, int k, uint64_t p) {
    return l->second_acts && l->second.length <= p ? second_level(&l->second, k, p) : first_level(l, k, p);
}

static bool frozen(const mask *m, uint64_t p) { return m->on && m->freeze <= p && p < m->resume; }

static unsigned pulse_level(const pulse *g, uint64_t p) {
    return (g->level + (g->acts ? (g->toggle1 <= p) + (g->toggle2 <= p) : 0)) & 1;
}

static unsigned span_level(const span *s, uint64_t p) { return (s->level + !(s->from <= p && p < s->to)) & 1; }

static uint16_t word_of(const line *l, uint64_t p) {
    uint64_t q = frozen(&l->mask1, p) ? l->mask1.freeze : frozen(&l->mask2, p) ? l->mask2.freeze : p;
    unsigned w = 0;
    for (int k = 0; k < 6; k++) w |= v_level(l, k, q) << k;
    for (int k = 0; k < 5; k++) w |= pulse_level(&l->gates[k], p) << (6 + k);
    return w | pulse_level(&l->subck, p) << 11 | span_level(&l->mshut, p) << 12 | span_level(&l->strobe, p) << 13;
}
