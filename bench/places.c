// The places or the words of a field's last two pixels in plain C, written from the rules and not from the Rattle code: reads `N`, `L` or `C` and a script as
// crates/bench does, asks as often, each answer with its check, and writes the same checksum.
#include "script.h"

enum { ROUNDS = 100000 };

static unsigned found_line, found_pixel;

// Where field pixel n lies: region by region, and one division.
static void locate(uint64_t n) {
    check_rules();
    int i = 0;
    while (i < the_field.n && n >= region_size(i)) n -= region_size(i++);
    if (i == the_field.n) refuse(19, 0);
    unsigned first = the_field.regions[i].first, length = sequences[the_field.regions[i].sequence].length;
    unsigned line = n / length, most = the_field.lines - 1 - first;
    if (line > most) line = most;
    found_line = first + line;
    found_pixel = n - (uint64_t)line * length;
}

static uint16_t level(unsigned n, unsigned pixel) {
    check_rules();
    if (!exists(n, pixel)) refuse(19, 0);
    line l = line_of(region_of(n), n);
    return word_of(&l, pixel);
}

static uint64_t places_sum(void) {
    uint64_t pixels = 0, sum = 0;
    for (int i = 0; i < the_field.n; i++) pixels += region_size(i);
    for (int k = 0; k < ROUNDS; k++) {
        locate(pixels - 2 + k % 2);
        sum += found_line + found_pixel;
    }
    return sum;
}

static uint64_t checks_sum(void) {
    for (int k = 0; k < ROUNDS; k++) check_rules();
    return 0;
}

static uint64_t levels_sum(void) {
    uint64_t sum = 0;
    for (int k = 0; k < ROUNDS; k++) sum += level(the_field.lines - 1, the_field.last - 2 + k % 2);
    return sum;
}

int main(void) {
    static uint8_t text[SCRIPT_MOST + 2];
    size_t n = fread(text, 1, sizeof text, stdin);
    if (n == 0) return 1;
    read_script(text + 1, n - 1);
    check_rules();
    printf("%llu\n", (unsigned long long)(text[0] == 'N' ? places_sum() : text[0] == 'L' ? levels_sum() : checks_sum()));
    return 0;
}
