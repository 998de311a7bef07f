/* 001's example 6 on the older units' S1D13706: writes the eighteen registers, puts the six values together from their bytes, and
 * prints what the window's corner shows.
 *
 *   examples/build
 *   gcc -O2 -Iinclude examples/older.c target/staticlib/libs1d.a -o target/older && target/older
 */
#include <s1d.h>
#include <stdio.h>

/* 320 x 240, depth 4, 90 degrees, main base 0; the window's base 9600h, at (64, 80), 120 x 160 */
static const uint8_t screen[S1D_SCREEN_LENGTH] = {4, 1, 1, 0, 64, 1, 240, 0, [13] = 0x96, [16] = 64, [18] = 80, [20] = 120, [22] = 160};

static uint8_t stream[S1D06_STREAM_LENGTH];
static uint8_t memory[S1D06_MEMORY_LENGTH] = {[0x9600] = 0x50};

int main(void) {
    const uint8_t list[1] = {0};   /* this chip draws nothing: no commands, */
    const uint16_t words[1] = {0}; /* and so no host words */
    s1d_compiled c = s1d06_compile(S1D_SHORT_FORM, screen, sizeof screen, list, 0, words, 0, stream, sizeof stream);
    if (c.number != S1D_ACCEPTED) {
        printf("refused: %u\n", c.number);
        return 1;
    }
    uint8_t bytes[S1D06_REGISTERS];
    for (int i = 0; i < S1D06_REGISTERS; i++) {
        const uint8_t *record = stream + S1D_STREAM_RECORD_LENGTH * i;
        bytes[i] = record[4];
        printf("%02Xh is set to %02Xh\n", record[0], bytes[i]); /* on the board: a write of this byte to this register */
    }
    s1d_values v = s1d06_values(bytes);
    /* the view's pixel (64, 80), the window's upper left one, is at panel point (80, 239 - 64) */
    s1d_point at = s1d06_read_point(c.depth, c.rotation, c.flag, 320, 240, v.values, 80, 175, memory, sizeof memory);
    printf("main start %Xh, window start %Xh; the window's corner shows %u\n", v.values[0], v.values[2], at.colour);
    return 0;
}
