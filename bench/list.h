// The hold list in plain C, and the job around it: reads a script from standard input, checks it, has its list made, and prints the list or the refusal.
#include "script.h"

enum { ROOM = 4096 };

// The hold list: steps past the room are only counted.

static uint32_t counts[ROOM];
static uint16_t words[ROOM];
static unsigned steps;

static void close_step(uint32_t count, uint16_t word) {
    if (steps < ROOM) {
        counts[steps] = count;
        words[steps] = word;
    }
    steps++;
}

// What each program brings: makes the list, and gives the number of pixels.
static uint32_t compile(void);

int main(void) {
    static uint8_t script[SCRIPT_MOST + 1];
    read_script(script, fread(script, 1, sizeof script, stdin));
    check_rules();
    uint32_t pixels = compile();
    if (steps > ROOM) refuse(18, steps);
    printf("steps %u pixels %u\n", steps, (unsigned)pixels);
    for (unsigned i = 0; i < steps; i++) printf("%u %04X\n", (unsigned)counts[i], words[i]);
    return 0;
}
