#!/usr/bin/env python3
"""Writes the input and the expected output of crates/wear.

The script is made here, its erases are counted here by the sectors that they cover, and the sheet is laid out here from its description; no
program of the project is asked. Run it from the project's root.
"""
SECTOR = 4096
SECTORS = 16
LONGEST = 50  # marks of a bar
TIMES = {0x20: 120000, 0xD8: 2000000, 0x60: 2000000, 0xC7: 2000000}  # of the erases, model 1: 000 L523-525


def bar(count, largest):
    if largest <= LONGEST:
        return "#" * count
    return "#" * (max(1, count * LONGEST // largest) if count else 0)


def sheet(wear):
    """A heading, a line a sector, and the figures."""
    largest = max(wear)
    lines = ["Wear sheet: erases of each sector", "sector      erases"]
    for sector, count in enumerate(wear):
        lines.append(("%6d%12d  %s" % (sector, count, bar(count, largest))).rstrip())
    lines.append("total %d" % sum(wear))
    lines.append("smallest %d" % min(wear))
    lines.append("largest %d, first in sector %d" % (largest, wear.index(largest)))
    lines.append("mean %d and %d/%d" % (sum(wear) // len(wear), sum(wear) % len(wear), len(wear)))
    return "\n".join(lines) + "\n"


class Script:
    """Lines, and how often each sector was erased by them."""

    def __init__(self):
        self.lines, self.wear = [], [0] * SECTORS

    def frame(self, sent, tail=0):
        self.lines.append("F\t1\t%d\t%s" % (tail, sent.hex().upper()))

    def wait(self, us):
        self.lines.append("W\t%d" % us)

    def erase(self, command, address=None):
        """06, the erase, which is taken, and its time. On model 1 the block is the chip."""
        self.frame(b"\x06")
        self.frame(bytes([command]) + (b"" if address is None else address.to_bytes(3, "big")))
        self.wait(TIMES[command])
        for sector in (address // SECTOR,) if command == 0x20 else range(SECTORS):
            self.wear[sector] += 1


def worn():
    """Every kind of erase, more than 50 of one sector, and erases that do not count: refused ones, and other commands."""
    s = Script()
    for times, sector in ((130, 7), (65, 8), (3, 0), (1, 15), (2, 14)):
        for _ in range(times):
            s.erase(0x20, sector * SECTOR + 0x123)
    s.erase(0xD8, 0x8000)
    s.erase(0xD8, 0xFFFFFF)
    s.erase(0xC7)
    s.erase(0x60)
    refused(s)
    return s


def refused(s):
    s.frame(b"\x20\x00\x00\x00")  # 15: WEL is 0
    s.frame(b"\x52\x00\x00\x00")  # 21: withdrawn
    s.frame(b"\x06")
    s.frame(b"\x20\x00\x00\x00", tail=1)  # 14
    s.frame(b"\x02\x00\x00\x00\xA5")  # a program counts nothing
    s.frame(b"\x20\x00\x00\x00")  # 11: it is busy
    s.wait(5000)
    s.frame(b"\x06")
    s.frame(b"\x01\x04")
    s.wait(15000)
    s.frame(b"\x06")
    s.frame(b"\x20\x00\x00\x00")  # 17: BP is 1
    s.wait(0)
    s.frame(b"\x04")
    s.lines.append("20\t000000")  # 20: no line of a script
    s.lines.append("P")


def main():
    s = worn()
    with open("crates/wear/stdin", "w", newline="") as f:
        f.write("\n".join(s.lines) + "\n")
    with open("crates/wear/stdout", "w", newline="") as f:
        f.write(sheet(s.wear))


if __name__ == "__main__":
    main()
