#!/usr/bin/env python3
"""Writes the input and the expected output of crates/test_script_vectors.

The lines are made here, and what is expected of them is computed here, by the rules of the scope's section
"Script and log" and nothing else; no program of the project is asked. Run it from the project's root.
"""
import re

FRAME = re.compile(rb"F\t([01])\t([0-7])\t((?:[0-9A-F]{2}){0,300})")
WAIT = re.compile(rb"W\t(0|[1-9][0-9]*)")
BLOCK = 97  # bytes that the program reads at a time


def frame(wp, tail, count, first=0):
    data = bytes((first + 7 * i) % 256 for i in range(count))
    return b"F\t%d\t%d\t%s" % (wp, tail, data.hex().upper().encode())


def good():
    yield from (b"F\t1\t0\t06", b"F\t1\t0\t0500", b"F\t1\t0\t020000FFA55A", b"W\t5000", b"F\t1\t0\t0300000000")
    yield from (b"F\t1\t0\t030000FF0000", b"F\t1\t1\t06", b"P")
    yield from (frame(wp, tail, 2, 16 * tail) for wp in (0, 1) for tail in range(8))
    yield b"F\t0\t0\t"  # an empty frame ends in a tab
    yield b"F\t1\t7\t"
    yield b"F\t1\t0\t0123456789ABCDEF"
    yield b"F\t0\t3\t" + bytes(range(256)).hex().upper().encode()
    yield from (frame(1, 0, n) for n in (1, 3, 16, 45, 46, 255, 256, 257, 299, 300))
    yield from (b"W\t%d" % n for n in (0, 1, 9, 10, 99, 100, 15000, 999999999, 1000000000, 4294967294, 4294967295))


def bad():
    # fields
    yield from (b"", b"F", b"F\t", b"F\t1", b"F\t1\t", b"F\t1\t0", b"W", b"W\t", b"\t", b"\t\t\t", b"\tP")
    yield from (b"F\t1\t0\t06\t", b"F\t1\t0\t06\t00", b"F\t\t1\t0\t06", b"F\t1\t\t0\t06", b"F\t1\t0\t\t06", b"F10\t06")
    yield from (b"W\t1\t", b"W\t1\t2", b"W\t\t1", b"P\t", b"P\t1", b"P\t\t", b"PP", b"FP", b"PF\t1\t0\t06", b"F\t1\t0\tP")
    yield from (b"F 1 0 06", b"F,1,0,06", b"W 1", b"W1", b"F1006", b"F\t1 0\t06")
    # WP# and tail
    yield from (b"F\t2\t0\t06", b"F\t/\t0\t06", b"F\tH\t0\t06", b"F\t01\t0\t06", b"F\t\t0\t06", b"F\t11\t0\t06", b"F\t-1\t0\t06")
    yield from (b"F\t1\t8\t06", b"F\t1\t9\t06", b"F\t1\t/\t06", b"F\t1\t:\t06", b"F\t1\t00\t06", b"F\t1\t\t06", b"F\t1\tA\t06")
    # hex
    yield from (b"F\t1\t0\t0", b"F\t1\t0\t060", b"F\t1\t0\t06050", b"F\t1\t0\t0a", b"F\t1\t0\tA5fF", b"F\t1\t0\t0G", b"F\t1\t0\t0@")
    yield from (b"F\t1\t0\t0:", b"F\t1\t0\t/0", b"F\t1\t0\t`A", b"F\t1\t0\t0x06", b"F\t1\t0\t06 ", b"F\t1\t0\t06 05", b"F\t1\t0\t 6")
    yield from (frame(1, 0, n) for n in (301, 302, 316, 317, 318, 400))
    yield frame(1, 0, 300) + b"0"
    yield frame(1, 0, 299)[:-1] + b"g"
    yield frame(1, 0, 300)[:6] + b"g" + frame(1, 0, 300)[7:]
    # numbers
    yield from (b"W\t00", b"W\t01", b"W\t007", b"W\t0000000000", b"W\t-1", b"W\t+1", b"W\t 1", b"W\t1 ", b"W\t1.5", b"W\t1,000")
    yield from (b"W\t4294967296", b"W\t4294967300", b"W\t9999999999", b"W\t42949672950", b"W\t18446744073709551615")
    yield from (b"W\t18446744073709551616", b"W\t18446744073709551617", b"W\t99999999999999999999", b"W\t0x10", b"W\t1e3", b"W\tA", b"W\t1/", b"W\t1:")
    # letters
    yield from (b"f\t1\t0\t06", b"w\t1", b"p", b"X", b"Q\t1", b"E\t1\t0\t06", b"G\t1\t0\t06", b"# a note", b"//", b"line\tanswer\tfrom\tbytes\tnote")
    # other bytes
    yield from (b"F\t1\t0\t06\r", b"W\t1\r", b"P\r", b"\r", b"P\0", b"\0P", b"\0", b"F\t1\t0\t06\0", b"F\0001\t0\t06", b"W\t1\0", b" P", b"P ", b" ")
    yield from (b"\xff", b"\x80", b"F\t1\t0\t\xb06", b"W\t\xb1", b"\xd0", "W\t１".encode(), b"\x0b", b"\x7f", b"F\x09\x31\x0b0\t06")
    # length
    yield from (b"P" * n for n in (2, 96, 97, 98, 194, 639, 640, 641, 642, 1000))
    yield from (b"W\t1" + b"0" * n for n in (637, 638, 700))
    yield b"W\t" + b"0" * 5000
    yield frame(1, 0, 300) + b" " * 34  # 640 bytes, and then 641
    yield frame(1, 0, 300) + b" " * 35
    yield frame(1, 0, 1) + b"\0" * 633
    yield frame(1, 0, 1) + b"\r" * 5000


def to_edge(size, place):
    """A bad line after which the next byte stands at `place` of a block, counted from the input's start."""
    return b"-" * ((place - size - 1) % BLOCK)


def all_lines():
    lines = []

    def add(line):
        assert b"\n" not in line
        lines.append(line)

    bads = list(bad())
    goods = list(good())
    for line in goods:
        add(line)
    for i, line in enumerate(bads):  # after each bad line a good one, so that nothing is carried over
        add(line)
        add(goods[i % len(goods)])
    for line in goods[:8] + bads[:4] + [frame(1, 0, 300), frame(0, 7, 300), b"P" * 641]:
        for place in (0, 1, BLOCK - 1):  # the line starts there; and it ends there
            add(to_edge(sum(len(x) + 1 for x in lines), place))
            add(line)
            add(to_edge(sum(len(x) + 1 for x in lines), place - len(line)))
            add(line)
    add(b"F\t1\t5\t9F")  # the last line lacks its newline
    return lines


def expected(number, line):
    f = FRAME.fullmatch(line)
    w = WAIT.fullmatch(line)
    if len(line) > 640:
        f = w = None
    if f:
        data = f[3].decode()
        row = (f[2].decode(), data) if data else ("-", "-")
        note = "fold" if f[1] == b"1" else "-"  # the program's own rule: a frame with WP# high is noted
        return "%d\t0\t%s\t%s\t%s\nframe %s %s %d\n" % (number, *row, note, f[1].decode(), f[2].decode(), len(data) // 2)
    if w and int(w[1]) <= 4294967295:
        return "%d\t0\t-\t-\t-\nwait %d\n" % (number, int(w[1]))
    if line == b"P":
        return "%d\t0\t-\t-\t-\npower\n" % number
    return "%d\t20\t-\t-\t-\nbad\n" % number


def main():
    lines = all_lines()
    with open("crates/test_script_vectors/stdin", "wb") as f:
        f.write(b"\n".join(lines))
    with open("crates/test_script_vectors/stdout", "w", newline="") as f:
        f.write("line\tanswer\tfrom\tbytes\tnote\n")
        for i, line in enumerate(lines):
            f.write(expected(i + 1, line))


if __name__ == "__main__":
    main()
