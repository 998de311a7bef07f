#!/usr/bin/env python3
"""png.py IN.pgm OUT.png [SCALE]: a PGM or PPM picture as PNG, each point SCALE by SCALE."""
import struct, sys, zlib

kind, size, most, data = open(sys.argv[1], 'rb').read().split(b'\n', 3)
width, height = map(int, size.split())
scale = int(sys.argv[3]) if len(sys.argv) > 3 else 1
n = 3 if kind == b'P6' else 1
lines = b''
for q in range(height):
    line = data[q * width * n:(q + 1) * width * n]
    points = [bytes(value * 255 // int(most) for value in line[p * n:(p + 1) * n]) * scale for p in range(width)]
    lines += (b'\0' + b''.join(points)) * scale
chunk = lambda name, body: struct.pack('>I', len(body)) + name + body + struct.pack('>I', zlib.crc32(name + body))
head = struct.pack('>IIBBBBB', width * scale, height * scale, 8, 2 if n == 3 else 0, 0, 0, 0)
with open(sys.argv[2], 'wb') as out:
    out.write(b'\x89PNG\r\n\x1a\n' + chunk(b'IHDR', head) + chunk(b'IDAT', zlib.compress(lines, 9)) + chunk(b'IEND', b''))
