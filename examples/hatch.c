/* Hatches a rectangle by 002's example 17, a keyed pattern fill, copies a part of it by a transparent move, and prints what panel points
 * show; then what becomes of the list when the pattern lies in the rectangle.
 *
 *   examples/build
 *   gcc -O2 -Iinclude examples/hatch.c target/staticlib/libs1d.a -o target/hatch && target/hatch
 */
#include <s1d.h>
#include <stdio.h>
#include <string.h>

enum { COMMANDS = 2, PATTERN = 0x3C000, KEY = 1, INK = 7, PAPER = 9 };

/* 320 x 240, depth 8, rotation 0, no window, main base 0: the image ends at byte 12C00h */
static const uint8_t screen[S1D_SCREEN_LENGTH] = {8, 0, 0, 0, 64, 1, 240, 0};

/* (10, 20), 100 x 150, the pattern at 3C000h from its pixel (3, 4) on; then its part at (10, 20), 16 x 16, to (200, 20) */
static uint8_t list[COMMANDS * S1D_LONG_COMMAND_LENGTH] = {
    S1D_KEYED_PATTERN_FILL, S1D_MAIN, 0, 0, 10, 0, 20, 0, 100, 0, 150, 0, [32] = KEY, 0, 3, 4, 0x00, 0xC0, 0x03, 0x00,
    [48] = S1D_TRANSPARENT_MOVE, S1D_MAIN, 0, 0, 200, 0, 20, 0, 16, 0, 16, 0, 10, 0, 20, 0, [80] = PAPER};

static uint8_t stream[S1D_STREAM_LENGTH(COMMANDS, 0)];
static uint8_t memory[S1D_MEMORY_LENGTH];

static s1d_drawn draw(void) {
    const uint16_t words[1] = {0}; /* neither takes host words */
    return s1d_draw(S1D_LONG_FORM, screen, sizeof screen, list, sizeof list, words, 0, stream, sizeof stream, memory, sizeof memory);
}

static uint32_t colour(const s1d_drawn *d, uint32_t p, uint32_t q) {
    return s1d_read_point(8, 0, 0, 320, 240, d->values, p, q, memory, sizeof memory).colour;
}

int main(void) {
    /* a paper of 9, half of it 8; and, behind the image, a pattern of stripes: columns 3 and 7 are ink, the others the key colour */
    memset(memory, PAPER, sizeof memory);
    for (int y = 0; y < 240; y++)
        memset(memory + 320 * y + 160, PAPER - 1, 160);
    for (int i = 0; i < S1D_PATTERN_LENGTH(8); i++)
        memory[PATTERN + i] = i % 4 == 3 ? INK : KEY;

    s1d_drawn d = draw();
    printf("drawn: %u, %llu bytes of stream\n", d.number, (unsigned long long)d.length);
    for (uint32_t p = 9; p < 16; p++)
        printf("(%u, 20) shows %u, (%u, 20) shows %u\n", p, colour(&d, p, 20), p + 190, colour(&d, p + 190, 20));

    memcpy(list + 36, (uint8_t[]){0x40, 0x19, 0, 0}, 4); /* 1940h: in line 20 of the image, from column 64 on */
    s1d_drawn refused = draw();
    printf("with the pattern at 1940h: refused %u, command %llu\n", refused.number, (unsigned long long)refused.place);
    return !(d.number == S1D_ACCEPTED && colour(&d, 10, 20) == INK && colour(&d, 11, 20) == PAPER && colour(&d, 201, 20) == PAPER - 1 &&
             refused.number == S1D_SHARED_BYTE);
}
