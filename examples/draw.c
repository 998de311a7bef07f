/* Compiles the fill of 01's case B1, plays it, and prints what two panel points show and where in memory that stands.
 *
 *   examples/build
 *   gcc -O2 -Iinclude examples/draw.c target/staticlib/libs1d.a -o target/draw && target/draw
 */
#include <s1d.h>
#include <stdio.h>

/* 320 x 240, depth 8, rotation 0, no window, main base 0 */
static const uint8_t screen[S1D_SCREEN_LENGTH] = {8, 0, 0, 0, 64, 1, 240, 0};

/* (10, 20), 100 x 150, colour 1 */
static const uint8_t list[S1D_COMMAND_LENGTH] = {S1D_FILL, S1D_MAIN, 0, 0, 10, 0, 20, 0, 100, 0, 150, 0, [16] = 1};

static uint8_t stream[S1D_STREAM_LENGTH(1, 0)];
static uint8_t memory[S1D_MEMORY_LENGTH];

static void show(const s1d_compiled *c, const s1d_played *d, uint32_t p, uint32_t q) {
    s1d_point at = s1d_read_point(c->depth, c->rotation, c->flag, 320, 240, d->values, p, q, memory, sizeof memory);
    printf("(%u, %u) shows %u: byte %Xh from bit %u down\n", p, q, at.colour, at.address, at.bit);
}

int main(void) {
    const uint16_t words[1] = {0}; /* a fill takes no host words */
    s1d_compiled c = s1d_compile(S1D_SHORT_FORM, screen, sizeof screen, list, sizeof list, words, 0, stream, sizeof stream);
    if (c.number != S1D_ACCEPTED) {
        printf("compiling refused: %u at %llu\n", c.number, (unsigned long long)c.place);
        return 1;
    }
    s1d_played d = s1d_play(stream, c.length, memory, sizeof memory);
    if (d.number != S1D_ACCEPTED) {
        printf("playing refused: %u at %llu\n", d.number, (unsigned long long)d.place);
        return 1;
    }
    printf("%llu bytes of stream, line offset %u\n", (unsigned long long)c.length, d.values[1]);
    show(&c, &d, 9, 20);
    show(&c, &d, 10, 20);
    return 0;
}
