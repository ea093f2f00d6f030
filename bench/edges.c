// The whole job in plain C by edges, written from the rules and not from the Rattle code: the word at a pixel, then the next pixel of the line at which an
// output can change, in one pass. Nothing is kept from edge to edge.
#include "list.h"

// The nearer of a place and the next edge so far, where the place lies after pixel p.
static unsigned nearer(uint64_t place, unsigned p, unsigned next) { return p < place && place < next ? place : next; }

static unsigned pulse_edge(const pulse *g, unsigned p, unsigned next) {
    return g->acts ? nearer(g->toggle1, p, nearer(g->toggle2, p, next)) : next;
}

static unsigned span_edge(const span *s, unsigned p, unsigned next) { return nearer(s->from, p, nearer(s->to, p, next)); }

static unsigned mask_edge(const mask *m, unsigned p, unsigned next) { return m->on ? nearer(m->freeze, p, nearer(m->resume, p, next)) : next; }

static unsigned second_edge(const pattern *a, unsigned p, unsigned next) {
    for (int i = 0; i < 18; i++)
        if (a->toggles[i] != UNUSED) next = nearer(a->length + a->toggles[i], p, next);
    return next;
}

// The first pattern: its start, its toggles, and in plain and sweep each repetition's end, past which unused toggles lie; the last one is the run's.
static unsigned first_edge(const line *l, unsigned p, unsigned next) {
    const pattern *a = &l->pattern;
    uint64_t q = l->mode == PLAIN ? p : l->origin + p;
    if (q < l->start) return nearer(p + (l->start - q), p, next);
    uint64_t t = q - l->start;
    if (l->mode == MULTIPLIER) {
        for (int i = 0; i < 18; i++) {
            uint64_t at = (uint64_t)a->toggles[i] * a->length;
            if (a->toggles[i] != UNUSED && t < at) next = nearer(p + (at - t), p, next);
        }
    } else if (t < (uint64_t)l->repetitions * a->length) {
        uint64_t u = t % a->length;
        next = nearer(p + (a->length - u), p, next);
        for (int i = 0; i < 18; i++)
            if (u < a->toggles[i]) next = nearer(p + (a->toggles[i] - u), p, next);
    }
    return next;
}

// The next edge of the line after pixel p, or its end; V1 to V6 have none while they are frozen.
static unsigned next_edge(const line *l, unsigned p, unsigned length) {
    unsigned next = length;
    for (int k = 0; k < 5; k++) next = pulse_edge(&l->gates[k], p, next);
    next = pulse_edge(&l->subck, p, next);
    next = span_edge(&l->mshut, p, span_edge(&l->strobe, p, next));
    next = mask_edge(&l->mask1, p, mask_edge(&l->mask2, p, next));
    if (frozen(&l->mask1, p) || frozen(&l->mask2, p)) return next;
    if (!l->second_acts) return first_edge(l, p, next);
    if (l->second.length <= p) return second_edge(&l->second, p, next);
    return first_edge(l, p, nearer(l->second.length, p, next));
}

static uint32_t compile(void) {
    uint32_t pixels = 0, count = 0;
    uint16_t word = 0;
    for (int i = 0; i < the_field.n; i++)
        for (unsigned n = the_field.regions[i].first; n < end_of(i); n++) {
            line l = line_of(&the_field.regions[i], n);
            unsigned length = line_length(n);
            for (unsigned p = 0, next; p < length; p = next) {
                uint16_t w = word_of(&l, p);
                next = next_edge(&l, p, length);
                if (w != word && count != 0) {
                    close_step(count, word);
                    count = 0;
                }
                word = w;
                count += next - p;
            }
            pixels += length;
        }
    close_step(count, word);
    return pixels;
}
