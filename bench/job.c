// The whole job in plain C by pixels, written from the rules and not from the Rattle code: every output by its rule at every pixel, in one pass.
#include "list.h"

static uint32_t compile(void) {
    uint32_t pixels = 0, count = 0;
    uint16_t word = 0;
    for (int i = 0; i < the_field.n; i++)
        for (unsigned n = the_field.regions[i].first; n < end_of(i); n++) {
            line l = line_of(&the_field.regions[i], n);
            unsigned length = line_length(n);
            for (unsigned p = 0; p < length; p++) {
                uint16_t w = word_of(&l, p);
                if (w != word && count != 0) {
                    close_step(count, word);
                    count = 0;
                }
                word = w;
                count++;
            }
            pixels += length;
        }
    close_step(count, word);
    return pixels;
}
