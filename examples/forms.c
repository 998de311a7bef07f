/* Turns a list of two fills into the long form, compiles it in both forms, turns it back, and prints what becomes of it when byte 47 of
 * its second command is not zero.
 *
 *   examples/build
 *   gcc -O2 -Iinclude examples/forms.c target/staticlib/libs1d.a -o target/forms && target/forms
 */
#include <s1d.h>
#include <stdio.h>
#include <string.h>

enum { COMMANDS = 2 };

/* 320 x 240, depth 8, rotation 0, no window, main base 0 */
static const uint8_t screen[S1D_SCREEN_LENGTH] = {8, 0, 0, 0, 64, 1, 240, 0};

/* (10, 20), 100 x 150, colour 1; (30, 40), 60 x 110, colour 2 */
static const uint8_t list[COMMANDS * S1D_COMMAND_LENGTH] = {
    S1D_FILL, S1D_MAIN, 0, 0, 10, 0, 20, 0, 100, 0, 150, 0, [16] = 1,
    [32] = S1D_FILL, S1D_MAIN, 0, 0, 30, 0, 40, 0, 60, 0, 110, 0, [48] = 2};

static uint8_t turned[COMMANDS * S1D_LONG_COMMAND_LENGTH], back[sizeof list];
static uint8_t stream[2][S1D_STREAM_LENGTH(COMMANDS, 0)];

static s1d_compiled compile(uint32_t form, const uint8_t *commands, size_t length, uint8_t *into) {
    const uint16_t words[1] = {0}; /* fills take no host words */
    return s1d_compile(form, screen, sizeof screen, commands, length, words, 0, into, sizeof stream[0]);
}

int main(void) {
    s1d_list there = s1d_to_long(list, sizeof list, turned, sizeof turned);
    printf("turned long: %u, %llu bytes\n", there.number, (unsigned long long)there.length);

    s1d_compiled of_short = compile(S1D_SHORT_FORM, list, sizeof list, stream[0]);
    s1d_compiled of_long = compile(S1D_LONG_FORM, turned, there.length, stream[1]);
    int same = of_short.length == of_long.length && memcmp(stream[0], stream[1], of_short.length) == 0;
    printf("compiled: %u and %u, streams of %llu bytes, %s\n", of_short.number, of_long.number, (unsigned long long)of_long.length,
           same ? "the same" : "not the same");

    s1d_list again = s1d_to_short(turned, there.length, back, sizeof back);
    int old = again.length == sizeof list && memcmp(back, list, sizeof list) == 0;
    printf("turned back: %u, %llu bytes, %s\n", again.number, (unsigned long long)again.length, old ? "the old ones" : "not the old ones");

    turned[S1D_LONG_COMMAND_LENGTH + 47] = 1;
    s1d_compiled refused = compile(S1D_LONG_FORM, turned, there.length, stream[1]);
    printf("with a byte 47, compiled: refused %u, command %llu, the %llu bytes from %llu on\n", refused.number,
           (unsigned long long)refused.place, (unsigned long long)refused.part_length, (unsigned long long)refused.part_at);
    s1d_list none = s1d_to_short(turned, there.length, back, sizeof back);
    printf("with a byte 47, turned back: refused %u\n", none.number);
    return !(same && old && refused.number == S1D_COMMAND_FORM && none.number == S1D_NOT_SHORT);
}
