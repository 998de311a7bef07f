/* Feeds the stream of 01's case B1 to a player in blocks of 64 bytes, as the cable brings them, and
 * holds memory and answer against those of s1d_play.
 *
 *   examples/build
 *   gcc -O2 -Iinclude examples/serial.c target/staticlib/libs1d.a -o target/serial && target/serial
 */
#include <s1d.h>
#include <stdio.h>
#include <string.h>

/* 320 x 240, depth 8, rotation 0, no window, main base 0 */
static const uint8_t screen[S1D_SCREEN_LENGTH] = {8, 0, 0, 0, 64, 1, 240, 0};

/* (10, 20), 100 x 150, colour 1 */
static const uint8_t list[S1D_COMMAND_LENGTH] = {S1D_FILL, S1D_MAIN, 0, 0, 10, 0, 20, 0, 100, 0, 150, 0, [16] = 1};

static uint8_t stream[S1D_STREAM_LENGTH(1, 0)];
static uint8_t whole[S1D_MEMORY_LENGTH], fed[S1D_MEMORY_LENGTH];

int main(void) {
    const uint16_t words[1] = {0}; /* a fill takes no host words */
    s1d_compiled c = s1d_compile(S1D_SHORT_FORM, screen, sizeof screen, list, sizeof list, words, 0, stream, sizeof stream);
    s1d_played w = s1d_play(stream, c.length, whole, sizeof whole);
    if (c.number != S1D_ACCEPTED || w.number != S1D_ACCEPTED) {
        printf("compiling gave %u, playing %u\n", c.number, w.number);
        return 1;
    }

    s1d_player player = s1d_new_player();
    unsigned blocks = 0;
    for (size_t at = 0; at < c.length; at += S1D_BLOCK_LENGTH, blocks++) {
        size_t left = c.length - at;
        s1d_feed(&player, stream + at, left < S1D_BLOCK_LENGTH ? left : S1D_BLOCK_LENGTH, fed, sizeof fed);
    }
    s1d_played d = s1d_end(&player); /* also a refusal of a block: it is kept */
    if (d.number != S1D_ACCEPTED) {
        printf("playing in blocks refused: %u at %llu\n", d.number, (unsigned long long)d.place);
        return 1;
    }
    int same = memcmp(d.values, w.values, sizeof d.values) == 0 && memcmp(fed, whole, sizeof fed) == 0;
    printf("%llu bytes of stream in %u blocks, %llu records\n", (unsigned long long)c.length, blocks,
           (unsigned long long)player.count);
    puts(same ? "the same picture as by s1d_play" : "not the picture of s1d_play");
    return !same;
}
