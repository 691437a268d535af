"""A second rewriter of scripts, by the request's words, for the test of the first; and random scripts for both.

    tools/rewrite_reference.py rewrite FAULT    standard input rewritten on standard output, the changed lines' numbers on standard error
    tools/rewrite_reference.py random SEED      a script of some thousand lines

FAULT is none, or one that a rewriter might have: second (another 52 of the line changes too), bad (a line that is not well formed changes),
lower (as does one with small letters), inside (52 changes where it is not the first byte), newline (the last line gets one), numbers (lines count from 0).
"""
import random
import re
import sys

FRAME = re.compile(rb'F\t[01]\t[0-7]\t(?:[0-9A-F]{2}){0,300}')
LOWER = re.compile(rb'F\t[01]\t[0-7]\t(?:[0-9A-Fa-f]{2}){0,300}')


def line_rewritten(line, fault):
    good = (LOWER if fault == 'lower' else FRAME).fullmatch(line)
    if fault == 'bad':
        good = line[:1] == b'F'
    if good and line[6:8] == b'52':
        rest = line[8:].replace(b'52', b'D8', 1) if fault == 'second' else line[8:]
        return line[:6] + b'D8' + rest
    if good and fault == 'inside' and b'52' in line[8:]:
        return line[:8] + line[8:].replace(b'52', b'D8', 1)
    return line


def rewrite(text, fault):
    lines = text.split(b'\n')
    out = [line_rewritten(line, fault) for line in lines]
    first = 0 if fault == 'numbers' else 1
    numbers = [i + first for i, (a, b) in enumerate(zip(lines, out)) if a != b]
    new = b'\n'.join(out)
    if fault == 'newline' and not new.endswith(b'\n'):
        new += b'\n'
    return new, numbers


def any_line(draw):
    kind = draw.randrange(12)
    if kind < 5:
        count = draw.choice([0, 1, 2, 4, 5, 8, 300, 301, 317])
        data = bytes(draw.choice([0x52, 0xD8, draw.randrange(256)]) for _ in range(count))
        return b'F\t%d\t%d\t' % (draw.randrange(2), draw.randrange(8)) + data.hex().upper().encode()
    if kind < 7:
        return b'F\t1\t0\t52' + bytes(draw.choice(b'0123456789ABCDEFabcdef\t \r') for _ in range(draw.randrange(8)))
    if kind < 8:
        return b'W\t%d' % draw.randrange(1 << 33)
    if kind < 9:
        return b'F\t1\t0\t' + b'52' * draw.choice([316, 317, 318, 2500])
    if kind < 10:
        return bytes(draw.choice(b'F\t1052PW52D8 ') for _ in range(draw.randrange(30)))
    return draw.choice([b'P', b'', b'P\t52', b'f\t1\t0\t52000000', b'F 1 0 52', b'F\t1\t8\t52'])


def main(words):
    if words[0] == 'random':
        draw = random.Random(int(words[1]))
        text = b'\n'.join(any_line(draw) for _ in range(3000))
        sys.stdout.buffer.write(text + draw.choice([b'', b'\n']))
        return
    new, numbers = rewrite(sys.stdin.buffer.read(), words[1])
    sys.stdout.buffer.write(new)
    sys.stderr.write(''.join('%d\n' % n for n in numbers))


main(sys.argv[1:])
