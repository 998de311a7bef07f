/* Draws a bar and prints the panel line by line: upright, then on its side with a window over it; and what becomes of a line buffer that is
 * too short. Colours are characters.
 *
 *   examples/build
 *   gcc -O2 -Iinclude examples/line.c target/staticlib/libs1d.a -o target/line && target/line
 */
#include <s1d.h>
#include <stdio.h>
#include <string.h>

enum { WIDTH = 32, HEIGHT = 8 };

/* 32 x 8, depth 8, main base 0: upright; and turned by 90 degrees, the window's base 100h, at (4, 12), 4 x 10 */
static const uint8_t upright[S1D_SCREEN_LENGTH] = {8, 0, 0, 0, WIDTH, 0, HEIGHT, 0};
static const uint8_t turned[S1D_SCREEN_LENGTH] = {8, 1, 1, 0, WIDTH, 0, HEIGHT, 0, [13] = 1, [16] = 4, [18] = 12, [20] = 4, [22] = 10};

/* (2, 1), 5 x 4, on main; and the window's whole image */
static const uint8_t list[2 * S1D_COMMAND_LENGTH] = {
    S1D_FILL, S1D_MAIN, 0, 0, 2, 0, 1, 0, 5, 0, 4, 0, [16] = 'o',
    [32] = S1D_FILL, S1D_WINDOW, 0, 0, 0, 0, 0, 0, 4, 0, 10, 0, [48] = 'w'};

static uint8_t stream[S1D_STREAM_LENGTH(2, 0)];
static uint8_t memory[S1D_MEMORY_LENGTH];
static uint16_t line[WIDTH];

/* Draws so many commands on a paper of points, and prints the panel by a line buffer of so many colours; gives the first refusal. */
static uint32_t show(const uint8_t *screen, size_t commands, size_t length) {
    const uint16_t words[1] = {0}; /* a fill takes no host words */
    memset(memory, '.', sizeof memory);
    s1d_drawn d = s1d_draw(S1D_SHORT_FORM, screen, S1D_SCREEN_LENGTH, list, commands * S1D_COMMAND_LENGTH, words, 0,
                           stream, sizeof stream, memory, sizeof memory);
    if (d.number != S1D_ACCEPTED)
        return d.number;
    for (uint32_t q = 0; q < HEIGHT; q++) {
        uint32_t number = s1d_read_line(screen[0], screen[1], screen[2], WIDTH, HEIGHT, d.values, q, memory, sizeof memory, line, length);
        if (number != S1D_ACCEPTED)
            return number;
        for (int p = 0; p < WIDTH; p++)
            putchar(line[p]);
        putchar('\n');
    }
    return S1D_ACCEPTED;
}

int main(void) {
    uint32_t first = show(upright, 1, WIDTH);
    printf("upright: %u\n", first);
    uint32_t second = show(turned, 2, WIDTH);
    printf("on its side, with the window: %u\n", second);
    uint32_t short_by_one = show(turned, 2, WIDTH - 1);
    printf("by a buffer of %d colours: refused %u\n", WIDTH - 1, short_by_one);
    return !(first == S1D_ACCEPTED && second == S1D_ACCEPTED && short_by_one == S1D_STREAM_ROOM);
}
