#!/usr/bin/env python3
"""Writes the input and the expected output of crates/run_rewrite.

The script is made here, and what it becomes is computed here by the request's words: in a well-formed frame line whose first frame byte is 52
these two digits become D8, and no other byte changes. No program of the project is asked. Run it from the project's root.
"""
import re

OLD = re.compile(rb"(F\t[01]\t[0-7]\t)52((?:[0-9A-F]{2}){0,299})")
BLOCK = 4096  # bytes that the program reads at a time


def frame(count):
    """The line of a frame of that many bytes that begins with 52."""
    return b"F\t1\t7\t" + bytes((0x52 + 7 * i) % 256 for i in range(count)).hex().upper().encode()


def few():
    # frames that begin with 52: an erase, one of a wrong length, any level and tail, 52 more than once, the longest
    yield from (b"F\t1\t0\t06", b"F\t1\t0\t52000000", b"W\t2000000", b"F\t0\t3\t52", b"F\t1\t0\t5252525252", frame(300))
    # 52 elsewhere, and other frames
    yield from (b"F\t1\t0\t02000052525252", b"F\t1\t0\tD8000000", b"F\t1\t0\tD8520000", b"F\t1\t0\t05", b"F\t1\t0\t", b"W\t52", b"P")
    # bad lines: lower case, an odd digit, a wrong field, a frame of 301 bytes, over 640 bytes
    yield from (b"f\t1\t0\t52000000", b"F\t1\t0\t52aabbcc", b"F\t1\t0\t5200000", b"F 1 0 52000000", b"", b"F\t1\t8\t52000000", b"F\t2\t0\t52", b"P\t52")
    yield from (b"F\t1\t0\t52000000\r", b" F\t1\t0\t52", frame(301), b"F\t1\t0\t" + b"52" * 317, b"F\t1\t0\t" + b"52" * 318)


def all_lines():
    lines = list(few())

    def size():
        return sum(len(line) + 1 for line in lines)

    lines.append(b"F\t1\t0\t52" * (3 * BLOCK // 8))  # a bad line over several blocks
    for cut in (0, 1, 6, 7, 8, 13, 14, 15):  # bytes of the line in the first of two blocks; its newline is the last
        while size() % BLOCK + 64 < BLOCK - cut:
            lines.append(b"F\t1\t0\t52ABCDEF")
        lines.append(b"-" * ((-cut - size() - 1) % BLOCK))  # bad
        lines.append(b"F\t1\t0\t52123456")
    lines.append(b"F\t1\t0\t52FFFFFF")  # the last lacks its newline
    return lines


def rewritten(line):
    return OLD.sub(rb"\1D8\2", line) if OLD.fullmatch(line) else line


def main():
    lines = all_lines()
    with open("crates/run_rewrite/stdin", "wb") as f:
        f.write(b"\n".join(lines))
    with open("crates/run_rewrite/stdout", "wb") as f:
        f.write(b"\n".join(rewritten(line) for line in lines))


if __name__ == "__main__":
    main()
