/* S1D13A05 display unit: keeping hourly samples and making the drawing list of the wear strip that shows
 * the last of them, compiling a drawing list in either form and turning it into the other one, playing
 * its stream over a display memory, whole or in small blocks, and reading what a panel point or a whole
 * panel line shows; and, where a name begins with s1d06, the same of the older units' S1D13706, which has
 * no blits, so no commands and no player. docs/FORMATS.md has the records, registers and pixels by bytes
 * and bits, and docs/TRUST.md what is proved and what is assumed.
 *
 * Pointers. Each pointer is followed by its length in elements, but for values, which has six, bytes,
 * which has eighteen, and player and ring, which are one. It is valid for that length, and not null even
 * where the length is 0. A buffer that is written overlaps no other one of the same call. No function
 * keeps a pointer, allocates, or blocks.
 *
 * Answers. number is 0 where the input is accepted, else the refusal, one of s1d_refusal. A refusal
 * leaves every buffer as it was, and every other number of the answer is 0, but for place (and the
 * part, in s1d_compile), where they name the culprit. For s1d_feed alone memory keeps the work of the
 * records before the refused one, since a stream that comes in blocks cannot be taken back.
 */
#ifndef S1D_H
#define S1D_H

#include <stddef.h>
#include <stdint.h>

#ifdef __cplusplus
extern "C" {
#endif

#define S1D_SCREEN_LENGTH 32       /* bytes of a screen record */
#define S1D_COMMAND_LENGTH 32      /* bytes of a command in the short form */
#define S1D_LONG_COMMAND_LENGTH 48 /* and in the long form */
#define S1D_COMMANDS 64            /* most commands of a list */
#define S1D_STREAM_RECORD_LENGTH 8 /* bytes of a stream record */
#define S1D_BLOCK_LENGTH 64        /* most bytes of a block that s1d_feed takes */
#define S1D_MEMORY_LENGTH 262144   /* bytes of the display memory */
#define S1D_RING_HOURS 512         /* hours of a ring */
#define S1D_STRIP_HOURS 24         /* most hours of a wear strip */
#define S1D_STRIP_COLUMN 16        /* most pixels of a column's width */
#define S1D_STRIP_LINES 100        /* lines of a column, and the greatest height of a sample */
#define S1D_STRIP_COMMANDS 53      /* most commands of a strip: two for each hour, one for each digit */
#define S1D_STRIP_WORDS 320        /* most host words of a strip: five digits at depth 16 */
#define S1D_GLYPH_LENGTH 8         /* bytes of a glyph: a byte for each line */
#define S1D_FONT_LENGTH 80         /* bytes of a whole font: digits 0 to 9 */
#define S1D06_MEMORY_LENGTH 81920  /* bytes of the S1D13706's display memory */
#define S1D06_REGISTERS 18         /* its display registers, a byte each */
#define S1D06_STREAM_LENGTH 144    /* bytes of its stream: a record for each of them */

/* Bytes of the stream of so many commands and host words: six records for the screen, nine for each
 * command and one for each word. */
#define S1D_STREAM_LENGTH(commands, words) \
    (S1D_STREAM_RECORD_LENGTH * (6 + 9 * (size_t)(commands) + (size_t)(words)))

/* Bytes of a pattern at a depth, 8 or 16, and what its address is a multiple of. */
#define S1D_PATTERN_LENGTH(depth) (8 * (depth))

/* The form of a list, which the caller names: the bytes of each of its commands. A short command, numbers
 * with the low byte first: 0 operation; 1 surface; 2 raster code; 4-5 x; 6-7 y; 8-9 width; 10-11 height;
 * 12-13 source x; 14-15 source y; 16-17 colour. A long command begins with these 32 bytes; behind them are
 * 32-33 key colour; 34 pattern x; 35 pattern y; 36-39 pattern address. All other bytes are zero, and so is
 * each field that the operation does not name. */
enum s1d_form {
    S1D_SHORT_FORM = 32,
    S1D_LONG_FORM = 48
};

/* Byte 0 of a command, and the fields that it uses besides surface, x, y, width and height. Those above 2
 * are of the long form alone.
 *
 * A pattern is 8 rows of 8 pixels, one behind the other from the pattern address on: a multiple of 64 at
 * depth 8 and of 128 at depth 16, inside memory. Pattern x and y, 0 to 7, name its pixel in the upper left
 * corner of the rectangle, and it repeats both ways. It may share no byte with the rectangle (29). A
 * transparent move goes in positive direction only: where source and rectangle share a byte, the
 * rectangle's address may not be greater (29). */
enum s1d_operation {
    S1D_FILL = 0,               /* colour */
    S1D_MOVE = 1,               /* raster code, source */
    S1D_WRITE = 2,              /* raster code; takes host words */
    S1D_PATTERN_FILL = 3,       /* raster code, pattern x, y and address */
    S1D_KEYED_PATTERN_FILL = 4, /* key colour, pattern x, y and address; pixels of the key colour are left out */
    S1D_TRANSPARENT_MOVE = 5    /* key colour, source; pixels of the key colour are left out */
};

/* Byte 1 of a command. */
enum s1d_surface {
    S1D_MAIN = 0,
    S1D_WINDOW = 1
};

/* Byte 2 of a move, a write or a pattern fill: bit 2s + d is the result of source or pattern bit s and
 * destination bit d. */
enum s1d_raster {
    S1D_XOR = 0x6,
    S1D_AND = 0x8,
    S1D_COPY = 0xC,
    S1D_OR = 0xE
};

/* A screen record, numbers with the low byte first: 0 depth; 1 rotation; 2 flag; 4-5 panel width; 6-7
 * panel height; 8-11 main base; 12-15 window base; 16-17 window x; 18-19 y; 20-21 width; 22-23 height;
 * 24-25 main line length and 26-27 window line length in pixels, 0 meaning the shown width. Bytes 3 and
 * 28-31 are zero, and with flag 0 bytes 12-23 and 26-27.
 *
 * Refusals. The first whose text holds is given, in the order of the numbers, but that 26 is checked
 * after 5 for main and after 8 for the window, and that commands (12, 13, 14, 29, 15) and stream records
 * (20 to 23) are checked one after another; s1d_read_point, s1d_read_line, s1d_draw, s1d_feed, s1d_end,
 * s1d_wear_strip, s1d_to_long and s1d_to_short name their own order. 7 to 9, and 26 for the window, apply
 * with flag 1 only. The functions of the S1D13706 ask 6, 9 and 18 with 81920, 25 with 20479, and give 11
 * for any list that is not empty.
 *
 * place is the command's index for 12 to 15 and 29, the stream record's for 20 to 23, else 0. Both count
 * from 0. */
enum s1d_refusal {
    S1D_ACCEPTED = 0,           /* none: accepted */
    S1D_SCREEN_FORM = 1,        /* screen record not 32 bytes, flag above 1, or a byte that must be zero is not */
    S1D_DEPTH = 2,              /* depth not 1, 2, 4, 8 or 16 */
    S1D_ROTATION = 3,           /* rotation above 3 */
    S1D_PANEL_SIZE = 4,         /* panel width not a multiple of 8 in 8 to 1024, or height not 1 to 1024 */
    S1D_VIEW_WIDTH = 5,         /* view width not a multiple of 32 / depth */
    S1D_MAIN_IMAGE = 6,         /* main base not a multiple of 4, or its last shown pixel past byte 262144 */
    S1D_WINDOW_PLACE = 7,       /* window width or height 0, or window outside the view */
    S1D_WINDOW_DWORDS = 8,      /* window x or width not a multiple of 32 / depth */
    S1D_WINDOW_IMAGE = 9,       /* as 6, for the window */
    S1D_LIST_FORM = 10,         /* form not 32 or 48, list not a multiple of so many bytes, or over 64 commands */
    S1D_LIST_DEPTH = 11,        /* a command is present and depth is below 8 */
    S1D_COMMAND_FORM = 12,      /* operation above 2 (long form: 5), no such surface, raster code above 15, colour
                                   or key colour above 255 at depth 8, pattern x or y above 7, pattern address
                                   not a multiple of 64 (depth 16: 128) or not inside memory, or a byte that
                                   must be zero is not */
    S1D_RECTANGLE_EMPTY = 13,   /* rectangle width or height 0 */
    S1D_RECTANGLE_OUTSIDE = 14, /* destination, or the source of a move or transparent move, not inside the surface */
    S1D_WORDS_MISSING = 15,     /* too few host words for this and the earlier writes */
    S1D_WORDS_LEFT = 16,        /* host words left over at the end */
    S1D_STREAM_ROOM = 17,       /* stream buffer shorter than the stream; a wear strip's list or word buffer, or a
                                   turned list's target, too short; line buffer not the panel's width */
    S1D_MEMORY_FORM = 18,       /* memory not 262144 bytes */
    S1D_STREAM_FORM = 19,       /* stream not a multiple of 8 bytes */
    S1D_RECORD_NUMBER = 20,     /* number not a listed register nor 10000h */
    S1D_RECORD_VALUE = 21,      /* value outside its field, or a start that the model has no operation for */
    S1D_BLIT_OUTSIDE = 22,      /* a started blit would touch a byte outside the memory */
    S1D_DATA_DUE = 23,          /* data word when none is due; a register write, or the stream's end, while one
                                   is due (at the end, place is the number of records) */
    S1D_POINT_OUTSIDE = 24,     /* panel point outside the panel */
    S1D_POINT_ADDRESS = 25,     /* the point's dword address outside 0 to 65535 */
    S1D_LINE_LENGTH = 26,       /* a line length other than 0 below the shown width, not a multiple of
                                   32 / depth, or over 1023 dwords */
    S1D_WEAR_LIMIT = 27,        /* a sample that is not the first and not 1 to 512 steps ahead, or is above 100;
                                   an age above 511; of a wear strip: hours not 1 to 24, column not 1 to 16, a
                                   factory font under 80 bytes, a command's x or y past 65535; a digit above 9 */
    S1D_NOT_SHORT = 28,         /* a command has no short form: its operation is above 2, or a byte past 31 is
                                   not zero */
    S1D_SHARED_BYTE = 29,       /* a pattern shares a byte with the destination; or the source of a transparent move
                                   does, and the destination address is greater */
    S1D_BLOCK_FORM = 32         /* block over 64 bytes */
};

typedef struct s1d_compiled {
    uint32_t number;
    uint64_t place;
    uint64_t length;      /* bytes of the stream */
    uint32_t depth;       /* bits of a pixel: 1, 2, 4, 8 or 16 */
    uint32_t rotation;    /* 0 to 3 for 0, 90, 180, 270 degrees counter-clockwise */
    uint32_t flag;        /* 1 with the small window, else 0 */
    uint64_t part_at;     /* 12 to 15 and 29: where the refused command begins in the list; else 0 */
    uint64_t part_length; /* 12 to 15 and 29: its 32 or 48 bytes; else 0 */
} s1d_compiled;

typedef struct s1d_list {
    uint32_t number;
    uint64_t length; /* bytes of the turned list */
} s1d_list;

typedef struct s1d_played {
    uint32_t number;
    uint64_t place;
    uint32_t values[6]; /* main start, main offset, window start, window offset, X, Y */
} s1d_played;

/* The blit registers, as last written. */
typedef struct s1d_registers {
    uint32_t control;     /* 8000h */
    uint32_t command;     /* 8008h */
    uint32_t source;      /* 800Ch */
    uint32_t destination; /* 8010h */
    uint32_t offset;      /* 8014h */
    uint32_t width;       /* 8018h */
    uint32_t height;      /* 801Ch */
    uint32_t background;  /* 8020h: the key colour */
    uint32_t foreground;  /* 8024h */
} s1d_registers;

/* The state of a player that is fed in blocks, between two of them. It has no pointer and may be
 * copied. Any contents are a state, also those that no stream leads to. */
typedef struct s1d_player {
    uint32_t values[6];  /* screen registers as last written, in the order of s1d_played */
    s1d_registers blit;
    uint32_t due;        /* 0: no data word is due; any other number: one is */
    uint16_t line, word; /* the due word's line, and its index in the line */
    uint8_t half[7];     /* the bytes of the half-read record */
    uint8_t held;        /* how many they are; above 7 means 7 */
    uint64_t count;      /* records taken, up to 2^64 - 1 */
    uint32_t kept;       /* 0: no answer is kept; any other number: one is */
    uint32_t number;     /* the kept answer's number; where it is 0 the answer has place 0 and the values above */
    uint64_t place;      /* the kept answer's place */
} s1d_player;

typedef struct s1d_values {
    uint32_t values[6]; /* as in s1d_played */
} s1d_values;

typedef struct s1d_point {
    uint32_t number;
    uint32_t colour;  /* the pixel as a number of depth bits */
    uint32_t address; /* the byte that it stands in; at depth 16 its low byte */
    uint32_t bit;     /* the place of its highest bit there: 7 down to 0 below depth 8, else 7 */
} s1d_point;

typedef struct s1d_drawn {
    uint32_t number;
    uint64_t place;
    uint64_t length;    /* bytes of the stream */
    uint32_t values[6]; /* as in s1d_played */
} s1d_drawn;

/* The samples of the last 512 hours. It has no pointer and may be copied; what it holds is for the
 * functions below. Any contents are a ring, also those that no samples lead to. */
typedef struct s1d_ring {
    uint16_t any;          /* 0: there is no sample; any other number: there is one */
    uint16_t newest;       /* the newest sample's sequence number */
    uint16_t numbers[512]; /* by sequence number modulo 512: the number of the sample there */
    uint16_t heights[512]; /* and its height + 1; 0 for a blank hour */
} s1d_ring;

typedef struct s1d_hour {
    uint32_t number;
    uint32_t sampled; /* 1 where the hour has a sample, 0 where it is blank */
    uint32_t height;  /* the sample's, 0 to 100; 0 where it is blank */
} s1d_hour;

typedef struct s1d_strip {
    uint32_t number;
    uint64_t list_length;  /* bytes of the list */
    uint64_t words_length; /* host words */
} s1d_strip;

typedef struct s1d_glyph {
    uint32_t number;
    uint32_t site;   /* 1: a part of the site font; 0: of the factory font */
    uint64_t at;     /* where the glyph begins in that font */
    uint64_t length; /* its 8 bytes */
} s1d_glyph;

/* Compiles a screen record and a list of commands, in a form of s1d_form, into a stream. words are the
 * pixels of the writes, in order. The answer has the stream's length and the depth, rotation and flag
 * for the settings register; bytes past the stream keep their contents. S1D_STREAM_LENGTH of the list's
 * commands and of words_length is room enough. Refusals 1 to 17, 26 and 29. */
s1d_compiled s1d_compile(uint32_t form,
                         const uint8_t *screen, size_t screen_length,
                         const uint8_t *list, size_t list_length,
                         const uint16_t *words, size_t words_length,
                         uint8_t *stream, size_t stream_length);

/* Plays a stream over the display memory, all registers beginning at 0. stream_length is the length
 * that s1d_compile gave, not the buffer's. A stream that no compiling made may start the operations 0 write,
 * 2 and 3 move, 5 transparent move, 6 and 7 pattern fill, with raster code and with key colour, and Ch fill;
 * any other is 21. Transparent moves read what they have stored, and patterns are read before the first
 * pixel, whatever is shared. The answer has the last six screen values.
 * Refusals 18 to 23. */
s1d_played s1d_play(const uint8_t *stream, size_t stream_length,
                    uint8_t *memory, size_t memory_length);

/* A player before the first block: all zeros. */
s1d_player s1d_new_player(void);

/* Plays the next block of a stream, 0 to 64 bytes, cut anywhere. player and memory are as the earlier
 * blocks left them. A block that is taken gives 0, and 0 for all else; the bytes of a record that it
 * leaves incomplete are held. Fed from a new player and ended, a stream of whole records gets s1d_play's
 * number and place and, where that accepts, its memory and values, however it is cut.
 *
 * In the order of checking: an answer that is kept is given again, and nothing changes; 18; 32; 20 to
 * 23 record by record, place counting from the stream's start. 18 and 32 change nothing and are not
 * kept. 20 to 23 are kept: the records before the refused one are played, and the block's later bytes
 * are dropped. */
s1d_played s1d_feed(s1d_player *player,
                    const uint8_t *block, size_t block_length,
                    uint8_t *memory, size_t memory_length);

/* Ends the stream. The answer has the last six screen values, and is kept.
 * In the order of checking: an answer that is kept is given again, and nothing changes; 19 (a record is
 * half read); 23 (a data word is due; place is the number of records). */
s1d_played s1d_end(s1d_player *player);

/* What panel point (p, q) shows, of a panel of width by height, for the settings that s1d_compile gave
 * and the six values that s1d_play or s1d_end gave: the pixel's colour, and where in memory it stands.
 * Changes nothing.
 * Refusals, in the order of checking: 18, 1 (flag above 1), 2, 3, 4, 5, 21 (one of values outside its
 * field), 24, 25. */
s1d_point s1d_read_point(uint32_t depth, uint32_t rotation, uint32_t flag,
                         uint32_t width, uint32_t height, const uint32_t values[6],
                         uint32_t p, uint32_t q,
                         const uint8_t *memory, size_t memory_length);

/* Fills line with what panel line q shows, a colour for each panel column from the left: those that
 * s1d_read_point gives for (0, q), (1, q) and so on, with the same arguments. line_length is width. Gives
 * 0, or the refusal, and then line is as it was.
 * Refusals, in the order of checking: of the leftmost point that s1d_read_point refuses its number (18, 1,
 * 2, 3, 4, 5, 21, 24, 25), where width is 0 that of (0, q); 17 (line_length not width). */
uint32_t s1d_read_line(uint32_t depth, uint32_t rotation, uint32_t flag,
                       uint32_t width, uint32_t height, const uint32_t values[6],
                       uint32_t q,
                       const uint8_t *memory, size_t memory_length,
                       uint16_t *line, size_t line_length);

/* Compiles, then plays the stream: stream and memory as s1d_compile and s1d_play leave them, or both
 * as they were. Refusals 18, then as s1d_compile. */
s1d_drawn s1d_draw(uint32_t form,
                   const uint8_t *screen, size_t screen_length,
                   const uint8_t *list, size_t list_length,
                   const uint16_t *words, size_t words_length,
                   uint8_t *stream, size_t stream_length,
                   uint8_t *memory, size_t memory_length);

/* Turns a list in the short form into one in the long form: behind the 32 bytes of each command come 16
 * zeros. The turned list, 48 bytes for each command, stands at the target's start; what lies past it there
 * keeps its contents. Where no operation is above 2, it compiles and draws as the list does, and
 * s1d_to_short gives back the list's bytes.
 * Refusals, in the order of checking: 10 (list_length not a multiple of 32, or over 64 commands), 17. */
s1d_list s1d_to_long(const uint8_t *list, size_t list_length,
                     uint8_t *target, size_t target_length);

/* Turns a list in the long form into one in the short form: the first 32 bytes of each command. The turned
 * list stands at the target's start; what lies past it there keeps its contents. Of a command only the
 * operation and the bytes past 31 are looked at; one that compiling would refuse for another byte is
 * turned too.
 * Refusals, in the order of checking: 10 (list_length not a multiple of 48, or over 64 commands), 17, 28. */
s1d_list s1d_to_short(const uint8_t *list, size_t list_length,
                      uint8_t *target, size_t target_length);

/* A ring with no sample. */
s1d_ring s1d_new_ring(void);

/* Takes the sample of an hour into the ring. Sequence numbers count hours, and run on from 65535 to 0. It
 * is taken where it is the first or 1 to 512 steps ahead of the newest, and height is 0 to 100; the hours
 * between the two are then blank, and hours 512 or more behind it fall off. Gives 0, or 27, and then the
 * ring is as it was. */
uint32_t s1d_take_sample(s1d_ring *ring, uint16_t sequence, uint32_t height);

/* What the ring has of the hour of an age: 0 is the newest sample's hour, 511 the last. In a ring with no
 * sample all of them are blank. Changes nothing. Refusal 27 (age above 511). */
s1d_hour s1d_hour_at(const s1d_ring *ring, uint32_t age);

/* Makes the list, in the short form, and the host words of the wear strip of the last hours, for
 * s1d_compile or s1d_draw on a screen of this depth. (x, y) is the strip's upper left pixel on the main
 * image, column the width of an hour's column. From the left, oldest hour first, each column is a fill of
 * the background, 100 lines high, and then, where its hour has a sample that is not 0, a fill with the bar
 * colour, as many lines high as the sample, down to the lowest line. Then, where the ring has a sample, the
 * newest number follows below the columns, in decimal without leading zeros: from x on a write for each
 * digit, of 8 x 8 pixels, with code S1D_COPY; its pixels are bar where the glyph has a 1 and background
 * where it has a 0.
 *
 * A font has the glyphs of the digits from 0 on, 8 bytes each, a byte for each line from the top, the
 * highest bit on the left. A digit is drawn with the site font's glyph where that font has all 8 bytes,
 * else with the factory font's; site_length may be 0.
 *
 * The answer has both lengths; what lies past them in either buffer keeps its contents. A list buffer of
 * S1D_COMMAND_LENGTH x S1D_STRIP_COMMANDS bytes and a word buffer of S1D_STRIP_WORDS are always enough.
 * The ring is not changed.
 * Refusals, in the order of checking: 2; 11 (depth below 8); 12 (a colour above 255 at depth 8); 27 (hours,
 * column, factory_length, with digits to draw or without, or the x or y of a command that the list would
 * have); 17. */
s1d_strip s1d_wear_strip(const s1d_ring *ring, uint32_t hours, uint32_t depth,
                         uint16_t x, uint16_t y, uint32_t column,
                         uint16_t bar, uint16_t background,
                         const uint8_t *site, size_t site_length,
                         const uint8_t *factory, size_t factory_length,
                         uint8_t *list, size_t list_length,
                         uint16_t *words, size_t words_length);

/* Where a digit's glyph is: the 8 bytes from 8 x digit on of the site font, where it has them all, else of
 * the factory font. Refusal 27 (factory_length under 80, digit above 9). */
s1d_glyph s1d_find_glyph(const uint8_t *site, size_t site_length,
                         const uint8_t *factory, size_t factory_length,
                         uint32_t digit);

/* Compiles a screen record into the byte writes of the S1D13706: a record for each register, its number
 * and a byte, in the order 74h 75h 76h main start; 78h 79h main offset; 7Ch 7Dh 7Eh window start; 80h 81h
 * window offset; 84h 85h window X start; 88h 89h Y start; 8Ch 8Dh X end; 90h 91h Y end, each value's lowest
 * byte first, and the window's all 0 with flag 0. The answer is s1d_compile's; no part of the list is
 * ever refused. Refusals 1 to 9 and 26, 10, 11 (the list is not empty), 16 (there is a host word), 17. */
s1d_compiled s1d06_compile(uint32_t form,
                           const uint8_t *screen, size_t screen_length,
                           const uint8_t *list, size_t list_length,
                           const uint16_t *words, size_t words_length,
                           uint8_t *stream, size_t stream_length);

/* The six values that the S1D13706's registers make, given their bytes in the order of s1d06_compile: a
 * position is its start + 65536 x its end, and nothing is masked. Any bytes have values. */
s1d_values s1d06_values(const uint8_t bytes[S1D06_REGISTERS]);

/* As s1d_read_point, of the S1D13706's memory. */
s1d_point s1d06_read_point(uint32_t depth, uint32_t rotation, uint32_t flag,
                           uint32_t width, uint32_t height, const uint32_t values[6],
                           uint32_t p, uint32_t q,
                           const uint8_t *memory, size_t memory_length);

/* As s1d_read_line, of the S1D13706's memory. */
uint32_t s1d06_read_line(uint32_t depth, uint32_t rotation, uint32_t flag,
                         uint32_t width, uint32_t height, const uint32_t values[6],
                         uint32_t q,
                         const uint8_t *memory, size_t memory_length,
                         uint16_t *line, size_t line_length);

#ifdef __cplusplus
}
#endif

#endif
