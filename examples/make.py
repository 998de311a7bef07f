#!/usr/bin/env python3
"""Writes the example files beside it: a wear chart of 24 hourly columns, upright and turned, in grey and in colour, its list in both
forms; one of 48 columns, and screen records that show the last 24 of them; one of 12 columns with hatching and see-through copies, in
the long form, and screen records that show it without its last lines; hourly samples for the program `strip`; a screen of the older
units; and damaged ones. The same list and words serve every rotation; only the screen record differs."""
import struct
from pathlib import Path

HERE = Path(__file__).resolve().parent
WIDTH, HEIGHT = 96, 64                       # the view, as a person sees it
WIDE = 192                                   # the chart of two days; a view shows half of it
WINDOW = (24, 11)                            # width and height of the small window, which holds the number
PLACE = (8, 3)                               # its place in the view
FILL, MOVE, WRITE, PATTERN_FILL, KEYED_PATTERN_FILL, TRANSPARENT_MOVE = range(6)
MAIN, SMALL = 0, 1
COPY = 0xC

# minutes worn in each of 25 hours; the last one arrives after the chart is drawn
WORN = [52, 60, 60, 58, 60, 60, 44, 12, 30, 48, 55, 60, 20, 0, 0, 15, 40, 52, 60, 57, 60, 60, 49, 54, 60]
# in each of 48 hours: the first day with the brace, and the last 24 of those
TWO_DAYS = [0, 0, 2, 4, 4, 6, 8, 10, 12, 12, 14, 16, 18, 20, 22, 24, 26, 28, 32, 34, 38, 42, 46, 50] + WORN[1:]

# in each of 12 hours, of which the last is not over
HALF_DAY = [44, 12, 30, 48, 55, 60, 20, 26, 15, 40, 52, 36]

GREY = {'paper': 0xE8, 'line': 0x50, 'bar': 0x90, 'low': 0xC0, 'new': 0x30, 'ink': 0x00, 'box': 0xFF}
COLOUR = {name: r >> 3 << 11 | g >> 2 << 5 | b >> 3 for name, (r, g, b) in {
    'paper': (244, 240, 228), 'line': (96, 96, 96), 'bar': (70, 130, 180), 'low': (222, 150, 70),
    'new': (30, 70, 130), 'ink': (16, 16, 16), 'box': (255, 255, 255)}.items()}

DIGITS = {'0': '01110 10001 10011 10101 11001 10001 01110', '1': '00100 01100 00100 00100 00100 00100 01110',
          '2': '01110 10001 00001 00110 01000 10000 11111', '3': '01110 10001 00001 00110 00001 10001 01110',
          '4': '00010 00110 01010 10010 11111 00010 00010', '5': '11111 10000 11110 00001 00001 10001 01110',
          '6': '01110 10000 10000 11110 10001 10001 01110', '7': '11111 00001 00010 00100 01000 01000 01000',
          '8': '01110 10001 10001 01110 10001 10001 01110', '9': '01110 10001 10001 01111 00001 00001 01110',
          'h': '10000 10000 10110 11001 10001 10001 10001'}
MARKER = ['11111', '01110', '00100']


def record(depth, rotation, panel, bases, place, window, line=0, flag=1):
    return struct.pack('<BBBBHHIIHHHHHH4x', depth, rotation, flag, 0, *panel, *bases, *place, *window, line, 0)


def screen(depth, rotation, width, height, place=PLACE, whole=WIDTH, first=0, line=0):
    """The record of a panel that shows the columns from `first` on of an image of `whole` columns; the window's image is behind."""
    bases = first * depth // 8, whole * HEIGHT * depth // 8
    return record(depth, rotation, (width, height), bases, place, WINDOW, line)


def command(operation, surface, x, y, w, h, raster=0, source=(0, 0), colour=0):
    return struct.pack('<BBBBHHHHHHH14x', operation, surface, raster, 0, x, y, w, h, *source, colour)


def long_form(commands):
    """The same list in records of 48 bytes: 16 zeros behind each of 32."""
    return b''.join(commands[at:at + 32] + bytes(16) for at in range(0, len(commands), 32))


def long_command(*short, key=0, pattern=(0, 0, 0), **more):
    """A command in 48 bytes; `pattern` is pattern x, pattern y and pattern address."""
    return command(*short, **more) + struct.pack('<HBBI8x', key, *pattern)


def words_of(rows, depth):
    """A write's host words: a word a pixel at depth 16; at depth 8 two pixels a word, low byte first, each line by itself."""
    words = []
    for row in rows:
        if depth == 16:
            words += row
        else:
            row = row + [0] * (len(row) % 2)
            words += [low + 256 * high for low, high in zip(row[::2], row[1::2])]
    return words


def glyphs(text, ink, box):
    rows = [[], [], [], [], [], [], []]
    for i, letter in enumerate(text):
        for row, bits in zip(rows, DIGITS[letter].split()):
            row += ([box] if i else []) + [ink if bit == '1' else box for bit in bits]
    return rows


def chart(depth, c, worn, hours, width, left):
    """The command list and the host words of a chart of so many hours, the first at column `left`. The last hour of `worn` comes
    after the others were drawn, which then move by one."""
    at = lambda hour: left + 3 * hour
    shade = lambda minutes: c['bar'] if minutes >= 30 else c['low']
    def bar(hour, minutes, colour):
        height = 1 + minutes * 2 // 3
        return command(FILL, MAIN, at(hour), 56 - height, 2, height, colour=colour)
    w, h = WINDOW
    *before, new = worn
    number = glyphs(str(sum(worn[-24:]) // 60) + 'h', c['ink'], c['box'])
    marker = [[c['new'] if bit == '1' else c['paper'] for bit in row] for row in MARKER]
    commands = [command(FILL, MAIN, 0, 0, width, HEIGHT, colour=c['paper']),
                command(FILL, MAIN, left - 2, 56, 3 * hours + 4, 1, colour=c['line']),
                command(FILL, MAIN, left - 2, 15, 1, 42, colour=c['line'])]
    commands += [command(FILL, MAIN, at(i), 57, 2, 2, colour=c['line']) for i in range(0, hours, 6)]
    commands += [bar(hours - len(before) + i, minutes, shade(minutes)) for i, minutes in enumerate(before)]
    commands += [command(MOVE, MAIN, left, 15, 3 * (hours - 1), 41, raster=COPY, source=(at(1), 15)),    # one column to the left
                 command(FILL, MAIN, at(hours - 1), 15, 3, 41, colour=c['paper']),
                 bar(hours - 1, new, c['new']),
                 command(WRITE, MAIN, at(hours - 1) - 1, 10, 5, 3, raster=COPY),         # the marker over the newest hour
                 command(FILL, SMALL, 0, 0, w, h, colour=c['box']),
                 command(WRITE, SMALL, 3, 2, len(number[0]), 7, raster=COPY)]            # the hours worn of the last 24
    words = words_of(marker, depth) + words_of(number, depth)
    return b''.join(commands), struct.pack(f'<{len(words)}H', *words)


# The chart with hatching, at depth 16. Its image has lines below those that the panel shows: what is drawn with stands there.
BELOW = 8
KEY = 0xF81F                                                       # a colour that nothing else has
POINTER = ['1111111', '1222221', '0122210', '0012100', '0001000']  # 0 is left out, 1 its edge, 2 its inside
STRIPES = lambda column, row: (column + row) % 4 < 2               # an 8 by 8 pattern


def hatched(c, worn):
    """The long list and the host words of a chart of 12 hours. Hours with little wear are hatched, and what is behind shows through;
    the newest hour, which is not over, is hatched in two colours; it and the hour with the least wear have a pointer above."""
    left, step = 16, 6
    at = lambda hour: left + step * hour
    line = 2 * WIDTH                                               # bytes
    # In the first line below stand the pixels of a pattern, row by row, as they do two lines on: both addresses are multiples of 128.
    behind, solid = [line * y for y in (HEIGHT, HEIGHT + 2)]
    stripes = lambda ink, between: [[ink if STRIPES(i % 8, i // 8) else between for i in range(64)]]
    pointer = [[(KEY, c['ink'], c['new'])[int(bit)] for bit in row] for row in POINTER]
    place = 64, HEIGHT                                             # right of the patterns
    w, h = WINDOW
    number = glyphs(str(sum(worn) // 60) + 'h', c['ink'], c['box'])
    loads = [(MAIN, 0, HEIGHT, stripes(c['low'], KEY)), (MAIN, 0, HEIGHT + 2, stripes(c['new'], c['bar'])), (MAIN, *place, pointer),
             (SMALL, 3, 2, number)]
    commands = [long_command(FILL, MAIN, 0, 0, WIDTH, HEIGHT, colour=c['paper']), long_command(FILL, SMALL, 0, 0, w, h, colour=c['box'])]
    commands += [long_command(WRITE, surface, x, y, len(rows[0]), len(rows), raster=COPY) for surface, x, y, rows in loads]
    commands += [long_command(FILL, MAIN, left - 3, y, step * 12 + 4, 1, colour=c['line']) for y in (56, 46, 36, 26)]
    commands += [long_command(FILL, MAIN, left - 3, 15, 1, 42, colour=c['line'])]
    def bar(hour, minutes):
        height = 1 + minutes * 2 // 3
        x, y = at(hour), 56 - height
        box = MAIN, x, y, step - 1, height
        if hour == 11:
            return long_command(PATTERN_FILL, *box, raster=COPY, pattern=(x % 8, y % 8, solid))
        if minutes < 30:
            return long_command(KEYED_PATTERN_FILL, *box, key=KEY, pattern=(x % 8, y % 8, behind))
        return long_command(FILL, *box, colour=c['bar'])
    commands += [bar(hour, minutes) for hour, minutes in enumerate(worn)]
    for hour in 11, worn.index(min(worn)):
        y = 54 - worn[hour] * 2 // 3 - len(POINTER)
        commands += [long_command(TRANSPARENT_MOVE, MAIN, at(hour) - 1, y, 7, len(POINTER), source=place, key=KEY)]
    words = [word for _, _, _, rows in loads for word in words_of(rows, 16)]
    return b''.join(commands), struct.pack(f'<{len(words)}H', *words)


def write(name, data):
    (HERE / name).write_bytes(data)


commands, words = chart(8, GREY, WORN, 24, WIDTH, 12)
write('chart.list', commands)
write('chart-long.list', long_form(commands))
write('chart.words', words)
write('upright.screen', screen(8, 0, WIDTH, HEIGHT))
write('turned-90.screen', screen(8, 1, HEIGHT, WIDTH))
write('turned-180.screen', screen(8, 2, WIDTH, HEIGHT))
write('turned-270.screen', screen(8, 3, HEIGHT, WIDTH))
in_colour, colour_words = chart(16, COLOUR, WORN, 24, WIDTH, 12)
write('colour.list', in_colour)
write('colour.words', colour_words)
write('colour.screen', screen(16, 0, WIDTH, HEIGHT))
write('colour-90.screen', screen(16, 1, HEIGHT, WIDTH))
wide, wide_words = chart(16, COLOUR, TWO_DAYS, 48, WIDE, 24)
write('wide.list', wide)
write('wide.words', wide_words)
write('wide.screen', screen(16, 0, WIDE, HEIGHT, whole=WIDE))
half = dict(place=(72, 20), whole=WIDE, first=WIDE - WIDTH, line=WIDE)
part = screen(16, 0, WIDTH, HEIGHT, **half)
write('part.screen', part)
write('part-90.screen', screen(16, 1, HEIGHT, WIDTH, **half))
hatch_list, hatch_words = hatched(COLOUR, HALF_DAY)
write('hatched.list', hatch_list)
write('hatched.words', hatch_words)
hatch_bases = 0, WIDTH * (HEIGHT + BELOW) * 2
write('hatched.screen', record(16, 0, (WIDTH, HEIGHT + BELOW), hatch_bases, PLACE, WINDOW))
write('hatched-part.screen', record(16, 0, (WIDTH, HEIGHT), hatch_bases, PLACE, WINDOW))
write('hatched-part-90.screen', record(16, 1, (HEIGHT, WIDTH), hatch_bases, PLACE, WINDOW))
write('older.screen', record(4, 1, (320, 240), (0, 0x9600), (64, 80), (120, 160)))   # 001's example 6, for the S1D13706

# 29 hours of samples: five hours without one, the numbers coming round past 65,535; and four lines that are left out
STRIP = 208, 128
HOURLY = {65520: 20, 65521: 35, 65522: 70, 65523: 85, 65524: 100, 65525: 92, 65526: 64, 65527: 40, 65533: 30, 65534: 55, 65535: 78,
          0: 90, 1: 96, 2: 100, 3: 88, 4: 71, 5: 0, 6: 12, 7: 47, 8: 66, 9: 83, 10: 91, 11: 74, 12: 58}
lines = [f'{n} {height}' for n, height in HOURLY.items()]
lines[4:4] = ['65523 10']                                          # the same hour again: refused
lines[12:12] = ['0 101']                                           # a height above 100: refused
lines[15:15] = ['65000 50']                                        # an hour long past: refused
lines += ['70000 50']                                              # no sequence number of 16 bits: no sample
write('wear.samples', ''.join(line + '\n' for line in lines).encode())
write('strip.screen', record(16, 0, STRIP, (0, 0), (0, 0), (0, 0), flag=0))
write('strip-90.screen', record(16, 1, STRIP[::-1], (0, 0), (0, 0), (0, 0), flag=0))

write('damaged.screen', screen(8, 0, WIDTH + 4, HEIGHT))           # a panel width that is no multiple of 8: refused 4
at = 7 * 32 + 10                                                   # command 7, the first bar: its height
write('damaged.list', commands[:at] + struct.pack('<H', 60) + commands[at + 2:])     # past the view's last line: refused 14 7
at = 2 * 48 + 47                                                   # command 2 in the long form: its last byte
write('damaged-long.list', long_form(commands)[:at] + b'\1' + long_form(commands)[at + 1:])     # not zero: refused 12 2
at = next(at for at in range(0, len(hatch_list), 48) if hatch_list[at] == KEYED_PATTERN_FILL)
x, y = struct.unpack_from('<HH', hatch_list, at + 4)
inside = -(-2 * (WIDTH * y + x) // 128) * 128 - 128                # the last pattern address up to its first pixel
write('damaged-hatched.list', hatch_list[:at + 36] + struct.pack('<I', inside) + hatch_list[at + 40:])    # a pattern in its own bar: refused 29
write('damaged.words', words[:-2])                                 # one word short: refused 15 at the last write
write('odd.words', words[:-1])                                     # half a word: a message, and no output
write('damaged-length.screen', part[:24] + struct.pack('<H', WIDE - 1) + part[26:])  # a line that is no multiple of 2: refused 26
