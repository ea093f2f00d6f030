// A script read 1,000 times in plain C, written from the rules and not from the Rattle code: reads `R`, `U`, `S` or `B` and a script as crates/bench does,
// reads it at once or in chunks of 16,384 bytes, of 64, or byte by byte, each time with its check, and writes the same checksum.
#include <string.h>
#include "script.h"

enum { ROUNDS = 1000, LONGEST = 58 };

// What has arrived: how many bytes, and those of the record that is not whole yet.
static size_t total, held;
static uint8_t bytes[LONGEST];

static void start(void) {
    memset(registers, 0, sizeof registers);
    memset(sequences, 0, sizeof sequences);
    memset(&the_field, 0, sizeof the_field);
    memset(gates, 0, sizeof gates);
    memset(&the_subck, 0, sizeof the_subck);
    memset(shutters, 0, sizeof shutters);
    total = held = 0;
}

// One byte more; a record is taken as soon as it is whole.
static void take_byte(uint8_t b) {
    size_t at = total - held;
    bytes[held++] = b;
    total++;
    if (total > SCRIPT_MOST) refuse(1, 0);
    if (held < 4) return;
    unsigned length = number(bytes, 0), kind = number(bytes, 1);
    if (kind < 1 || kind > 6) refuse(3, at);
    if (!length_allowed(kind, length)) refuse(4, at);
    if (held < 4 + length) return;
    if (!take(kind, bytes + 4, length)) refuse(5, at);
    held = 0;
}

static void take_chunk(const uint8_t *chunk, size_t n) {
    for (size_t i = 0; i < n; i++) take_byte(chunk[i]);
}

static void upload(const uint8_t *script, size_t n, size_t size) {
    for (size_t from = 0; from < n; from += size) take_chunk(script + from, n - from < size ? n - from : size);
    if (held > 0) refuse(2, total - held);
}

int main(void) {
    static uint8_t text[SCRIPT_MOST + 2];
    size_t n = fread(text, 1, sizeof text, stdin);
    if (n == 0) return 1;
    unsigned long long sum = 0;
    for (int k = 0; k < ROUNDS; k++) {
        start();
        if (text[0] == 'R') read_script(text + 1, n - 1);
        else upload(text + 1, n - 1, text[0] == 'U' ? 16384 : text[0] == 'S' ? 64 : 1);
        check_rules();
        sum += half(0, 1);
    }
    printf("%llu\n", sum);
    return 0;
}
