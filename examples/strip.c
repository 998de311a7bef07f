/* Takes hourly samples, past 65535 and with a gap, makes the wear strip of the last eight hours, draws it, and prints it as the
 * panel shows it: a line of text for ten lines of the columns, then the newest number.
 *
 *   examples/build
 *   gcc -O2 -Iinclude examples/strip.c target/staticlib/libs1d.a -o target/strip && target/strip
 */
#include <s1d.h>
#include <stdio.h>

/* 64 x 120, depth 8, rotation 0, no window, main base 0 */
static const uint8_t screen[S1D_SCREEN_LENGTH] = {8, 0, 0, 0, 64, 0, 120, 0};

/* digits 0 to 9, a byte for each line from the top, the highest bit on the left: examples/digits.font */
static const uint8_t font[S1D_FONT_LENGTH] = {
    0x00, 0x3C, 0x66, 0x6E, 0x76, 0x66, 0x66, 0x3C, 0x00, 0x18, 0x38, 0x18, 0x18, 0x18, 0x18, 0x7E,
    0x00, 0x3C, 0x66, 0x06, 0x1C, 0x30, 0x60, 0x7E, 0x00, 0x3C, 0x66, 0x06, 0x1C, 0x06, 0x66, 0x3C,
    0x00, 0x0E, 0x1E, 0x36, 0x66, 0x7E, 0x06, 0x06, 0x00, 0x7E, 0x60, 0x7C, 0x06, 0x06, 0x66, 0x3C,
    0x00, 0x3C, 0x60, 0x7C, 0x66, 0x66, 0x66, 0x3C, 0x00, 0x7E, 0x06, 0x0C, 0x18, 0x30, 0x30, 0x30,
    0x00, 0x3C, 0x66, 0x66, 0x3C, 0x66, 0x66, 0x3C, 0x00, 0x3C, 0x66, 0x66, 0x3E, 0x06, 0x06, 0x3C};

/* sequence number and height; two hours are missing, and two samples are refused */
static const struct {
    uint16_t sequence;
    uint32_t height;
} samples[] = {{65533, 80}, {65534, 100}, {65535, 60}, {0, 40}, {3, 101}, {65535, 50}, {3, 30}, {4, 90}};

enum { HOURS = 8, COLUMN = 7, X = 2, Y = 4, BAR = 1, BACKGROUND = 0 };

static uint8_t list[S1D_COMMAND_LENGTH * S1D_STRIP_COMMANDS];
static uint16_t words[S1D_STRIP_WORDS];
static uint8_t stream[S1D_STREAM_LENGTH(S1D_STRIP_COMMANDS, S1D_STRIP_WORDS)];
static uint8_t memory[S1D_MEMORY_LENGTH];

static void show(const uint32_t values[6], uint32_t line) {
    for (uint32_t p = X; p < X + HOURS * COLUMN; p++)
        putchar(s1d_read_point(8, 0, 0, 64, 120, values, p, line, memory, sizeof memory).colour == BAR ? '#' : '.');
    putchar('\n');
}

int main(void) {
    s1d_ring ring = s1d_new_ring();
    for (size_t i = 0; i < sizeof samples / sizeof samples[0]; i++) {
        uint32_t number = s1d_take_sample(&ring, samples[i].sequence, samples[i].height);
        if (number != S1D_ACCEPTED)
            printf("sample %u of height %u refused: %u\n", samples[i].sequence, samples[i].height, number);
    }
    const uint8_t site[1] = {0}; /* no glyphs of the site's own */
    s1d_strip s = s1d_wear_strip(&ring, HOURS, 8, X, Y, COLUMN, BAR, BACKGROUND, site, 0, font, sizeof font, list, sizeof list,
                                 words, sizeof words / sizeof words[0]);
    if (s.number != S1D_ACCEPTED) {
        printf("the strip is refused: %u\n", s.number);
        return 1;
    }
    s1d_drawn d = s1d_draw(S1D_SHORT_FORM, screen, sizeof screen, list, s.list_length, words, s.words_length, stream, sizeof stream,
                           memory, sizeof memory);
    if (d.number != S1D_ACCEPTED) {
        printf("drawing refused: %u at %llu\n", d.number, (unsigned long long)d.place);
        return 1;
    }
    printf("%llu commands, %llu host words\n", (unsigned long long)s.list_length / S1D_COMMAND_LENGTH,
           (unsigned long long)s.words_length);
    for (uint32_t line = 9; line < S1D_STRIP_LINES; line += 10)
        show(d.values, Y + line);
    for (uint32_t line = 0; line < S1D_GLYPH_LENGTH; line++)
        show(d.values, Y + S1D_STRIP_LINES + line);
    return 0;
}
