// A script read and checked in plain C, its regions and its lines: written from the rules and not from the Rattle code. A refusal is printed, and ends the program.
#include <stdio.h>
#include <stdlib.h>
#include "word.h"

enum { SCRIPT_MOST = 16384, NO_SECOND = 65535, NO_GATE2 = 65535 };

typedef struct { uint16_t low, high; } range;

// The profile: what the records carry.
typedef struct { bool given; uint16_t pattern, length, start, counts[2], mask; } sequence;
typedef struct { uint16_t first, sequence, mode; } region;
typedef struct { bool given; uint16_t lines, last, gate, gate2, second, n; region regions[7]; } field;
typedef struct { bool given; uint16_t on, level, toggle1, toggle2; } gate;
typedef struct { bool given; uint16_t level, toggle1, toggle2, suppressed, count; } subck;
typedef struct { bool given; uint16_t level, on_line, on_pixel, off_line, off_pixel; } shutter;

static uint32_t registers[120];
static sequence sequences[10];
static field the_field;
static gate gates[5];
static subck the_subck;
static shutter shutters[2];

static void refuse(int number, unsigned long place) {
    printf("refused %d %lu\n", number, place);
    exit(0);
}

// Refusal 10, with the output and its toggle, each counted from 1, of one of the 18 toggles, counted from 0.
static void refuse_toggle(int region, int i) {
    printf("refused 10 %d %d %d\n", region, i / 3 + 1, i % 3 + 1);
    exit(0);
}

// Reading: one record after another, a later one replaces an earlier one.

static uint16_t number(const uint8_t *body, int i) { return body[2 * i] | body[2 * i + 1] << 8; }

static bool within(const uint8_t *body, const range *ranges, int n) {
    for (int i = 0; i < n; i++)
        if (number(body, i) < ranges[i].low || number(body, i) > ranges[i].high) return false;
    return true;
}

static bool take_register(const uint8_t *b) {
    if (b[0] >= 120 || (b[0] % 12 == 0 && ((b[1] | b[2] << 8) >> 6 & 63) != 0)) return false;
    registers[b[0]] = b[1] | b[2] << 8 | (uint32_t)b[3] << 16;
    return true;
}

static bool take_sequence(const uint8_t *b) {
    static const range ranges[] = {{0, 9}, {0, 9}, {1, 4095}, {0, 4095}, {0, 4095}, {0, 4095}, {0, 3}};
    if (!within(b, ranges, 7)) return false;
    sequences[number(b, 0)] =
        (sequence){true, number(b, 1), number(b, 2), number(b, 3), {number(b, 4), number(b, 5)}, number(b, 6)};
    return true;
}

// A field has two forms, told apart by the length: 10 + 6n bytes, and 12 + 6n with a second gate line after the first.
static bool second_form(unsigned length) { return length % 6 == 0; }

static bool take_field(const uint8_t *b, unsigned length) {
    static const range ranges[] = {{1, 4095}, {1, 4095}, {0, 4094}};
    static const range of_region[] = {{0, 4094}, {0, 9}, {0, 2}};
    int after = second_form(length) ? 4 : 3;
    unsigned head = 2 * after + 4;
    field f = {true, number(b, 0), number(b, 1), number(b, 2), NO_GATE2, number(b, after), number(b, after + 1), {{0, 0, 0}}};
    if (second_form(length)) f.gate2 = number(b, 3);
    if (!within(b, ranges, 3) || (f.gate2 > 4094 && f.gate2 != NO_GATE2) || (f.second > 9 && f.second != NO_SECOND)) return false;
    if (length != head + 6u * f.n) return false;
    for (int i = 0; i < f.n; i++) {
        const uint8_t *r = b + head + 6 * i;
        if (!within(r, of_region, 3)) return false;
        f.regions[i] = (region){number(r, 0), number(r, 1), number(r, 2)};
    }
    the_field = f;
    return true;
}

static bool take_gate(const uint8_t *b) {
    static const range ranges[] = {{0, 4}, {0, 1}, {0, 1}, {0, 4095}, {0, 4095}};
    if (!within(b, ranges, 5)) return false;
    gates[number(b, 0)] = (gate){true, number(b, 1), number(b, 2), number(b, 3), number(b, 4)};
    return true;
}

static bool take_subck(const uint8_t *b) {
    static const range ranges[] = {{0, 1}, {0, 4095}, {0, 4095}, {0, 4095}, {0, 4095}};
    if (!within(b, ranges, 5)) return false;
    the_subck = (subck){true, number(b, 0), number(b, 1), number(b, 2), number(b, 3), number(b, 4)};
    return true;
}

static bool take_shutter(const uint8_t *b) {
    static const range ranges[] = {{0, 1}, {0, 1}, {0, 4095}, {0, 4095}, {0, 4095}, {0, 4095}};
    if (!within(b, ranges, 6)) return false;
    shutters[number(b, 0)] = (shutter){true, number(b, 1), number(b, 2), number(b, 3), number(b, 4), number(b, 5)};
    return true;
}

static bool length_allowed(unsigned kind, unsigned length) {
    static const unsigned lengths[] = {0, 4, 14, 0, 10, 10, 12};
    return kind == 3 ? length >= 16 && length <= 54 && (length % 6 == 4 || second_form(length)) : length == lengths[kind];
}

static bool take(unsigned kind, const uint8_t *body, unsigned length) {
    switch (kind) {
    case 1: return take_register(body);
    case 2: return take_sequence(body);
    case 3: return take_field(body, length);
    case 4: return take_gate(body);
    case 5: return take_subck(body);
    default: return take_shutter(body);
    }
}

static void read_script(const uint8_t *script, size_t n) {
    if (n > SCRIPT_MOST) refuse(1, 0);
    for (size_t at = 0; at < n;) {
        if (n - at < 4) refuse(2, at);
        unsigned length = number(script + at, 0), kind = number(script + at, 1);
        if (kind < 1 || kind > 6) refuse(3, at);
        if (!length_allowed(kind, length)) refuse(4, at);
        if (n - at - 4 < length) refuse(2, at);
        if (!take(kind, script + at + 4, length)) refuse(5, at);
        at += 4 + length;
    }
}

// The rules over the profile, in their order.

static uint16_t half(int k, int i) { return registers[12 * k + i / 2] >> 12 * (i % 2) & 4095; }

static pattern pattern_of(int k) {
    pattern a = {half(k, 0), half(k, 1), {0}, {0}};
    for (int i = 0; i < 18; i++) a.toggles[i] = half(k, 2 + i);
    for (int i = 0; i < 4; i++) a.pairs[i] = half(k, 20 + i);
    return a;
}

static unsigned end_of(int i) { return i + 1 < the_field.n ? the_field.regions[i + 1].first : the_field.lines; }

static const region *region_of(unsigned line) {
    int i = 0;
    while (end_of(i) <= line) i++;
    return &the_field.regions[i];
}

static unsigned line_length(unsigned line) {
    return line + 1u == the_field.lines ? the_field.last : sequences[region_of(line)->sequence].length;
}

static uint64_t region_size(int i) {
    uint64_t lines = end_of(i) - the_field.regions[i].first, length = sequences[the_field.regions[i].sequence].length;
    return end_of(i) == the_field.lines ? (lines - 1) * length + the_field.last : lines * length;
}

// Rule 10, where toggles from `unused` on are unused: which of the 18, counted from 0, is the first out of order, or 0 for none (0 never is).
static int out_of_order(const pattern *a, uint16_t unused) {
    for (int k = 0; k < 6; k++)
        for (int i = 3 * k + 1; i < 3 * k + 3; i++)
            if (a->toggles[i] < unused && a->toggles[i - 1] >= a->toggles[i]) return i;
    return 0;
}

static uint16_t highest_used(const pattern *a) {
    uint16_t most = 0;
    for (int i = 0; i < 18; i++)
        if (a->toggles[i] != UNUSED && a->toggles[i] > most) most = a->toggles[i];
    return most;
}

static bool masks_allowed(const pattern *a, unsigned mask) {
    if ((mask & 1) && a->pairs[0] >= a->pairs[1]) return false;
    if ((mask & 2) && a->pairs[2] >= a->pairs[3]) return false;
    return mask != 3 || a->pairs[1] <= a->pairs[2];
}

static void check_region(int i) {
    const region *r = &the_field.regions[i];
    const sequence *s = &sequences[r->sequence];
    if (!s->given) refuse(8, i);
    pattern a = pattern_of(s->pattern);
    if (a.length == 0) refuse(9, i);
    int toggle = out_of_order(&a, r->mode == MULTIPLIER ? UNUSED : a.length);
    if (toggle) refuse_toggle(i, toggle);
    if (r->mode == PLAIN) {
        if (!masks_allowed(&a, s->mask)) refuse(11, i);
        return;
    }
    if (s->mask != 0) refuse(11, i);
    if (s->counts[0] != s->counts[1] || (r->mode == MULTIPLIER && s->counts[0] != highest_used(&a))) refuse(12, i);
    if (s->start + (uint64_t)s->counts[0] * a.length > region_size(i)) refuse(13, i);
}

static bool second_allowed(unsigned line) {
    const region *r = region_of(line);
    const sequence *s = &sequences[r->sequence];
    pattern a = pattern_of(the_field.second);
    unsigned repetitions = s->counts[line % 2];
    return r->mode == PLAIN && a.length != 0 && !out_of_order(&a, UNUSED) && a.length < line_length(line) &&
           (repetitions == 0 || s->start + repetitions * half(s->pattern, 1) <= a.length);
}

static bool exists(unsigned line, unsigned pixel) { return line < the_field.lines && pixel < line_length(line); }

static void check_rules(void) {
    const field *f = &the_field;
    if (!f->given) refuse(6, 0);
    for (int i = 0; i < f->n; i++) {
        uint16_t first = f->regions[i].first;
        if ((i == 0 ? first != 0 : first <= f->regions[i - 1].first) || first >= f->lines) refuse(7, i);
    }
    for (int i = 0; i < f->n; i++) check_region(i);
    bool two = f->gate2 != NO_GATE2;
    if (f->gate >= f->lines || (two && (f->gate2 >= f->lines || f->gate2 == f->gate))) refuse(14, 0);
    if (f->second != NO_SECOND && !(second_allowed(f->gate) && (!two || second_allowed(f->gate2)))) refuse(14, 0);
    for (int i = 0; i < 5; i++) {
        const gate *g = &gates[i];
        if (!g->given || !g->on) continue;
        if (g->toggle1 >= g->toggle2 || g->toggle2 >= line_length(f->gate) || (two && g->toggle2 >= line_length(f->gate2))) refuse(15, i);
    }
    if (the_subck.given && (the_subck.toggle1 >= the_subck.toggle2 || the_subck.suppressed == 0)) refuse(16, 0);
    for (int i = 0; i < 2; i++) {
        const shutter *s = &shutters[i];
        if (s->given && (!exists(s->on_line, s->on_pixel) || !exists(s->off_line, s->off_pixel) || s->on_line > s->off_line ||
                         (s->on_line == s->off_line && s->on_pixel >= s->off_pixel)))
            refuse(17, i);
    }
}

// A line's numbers, made once a line.

// The part of line n in which a shutter is active; an absent one is at level 0.
static span span_of(const shutter *s, unsigned n) {
    if (!s->given) return (span){1, 0, 0};
    if (n < s->on_line || n > s->off_line) return (span){s->level, 0, 0};
    return (span){s->level, n == s->on_line ? s->on_pixel : 0, n == s->off_line ? s->off_pixel : 4095};
}

// An absent gate or SUBCK is at level 1. Gates and the second pattern act on both gate lines, SUBCK counts from the one named first.
static line line_of(const region *r, unsigned n) {
    const sequence *s = &sequences[r->sequence];
    const subck *c = &the_subck;
    bool at_gate = n == the_field.gate || n == the_field.gate2;
    unsigned subck_from = the_field.gate + c->suppressed;
    line l = {.mode = r->mode, .pattern = pattern_of(s->pattern), .start = s->start, .repetitions = s->counts[n % 2]};
    l.odd = odd_outputs(&l.pattern);
    l.origin = (n - r->first) * s->length;
    l.mask1 = (mask){s->mask & 1, l.pattern.pairs[0], l.pattern.pairs[1]};
    l.mask2 = (mask){s->mask >> 1 & 1, l.pattern.pairs[2], l.pattern.pairs[3]};
    l.second_acts = at_gate && the_field.second != NO_SECOND;
    if (l.second_acts) l.second = pattern_of(the_field.second);
    for (int k = 0; k < 5; k++) {
        const gate *g = &gates[k];
        l.gates[k] = g->given ? (pulse){at_gate && g->on, g->level, g->toggle1, g->toggle2} : (pulse){false, 1, 0, 0};
    }
    l.subck = c->given ? (pulse){subck_from <= n && n < subck_from + c->count, c->level, c->toggle1, c->toggle2}
                       : (pulse){false, 1, 0, 0};
    l.mshut = span_of(&shutters[0], n);
    l.strobe = span_of(&shutters[1], n);
    return l;
}
