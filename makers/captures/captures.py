#!/usr/bin/env python3
"""Writes a capture of the pins of a flash chip from a script, and the account of its frames.

    captures.py SCRIPT CAPTURE ACCOUNT [--per N] [--idle low|high] [--rate HZ] [--seed N] [--holds] [--long]

The script has lines F and W alone. A sample is a byte: bit 0 CS#, 1 SCLK, 2 SI, 3 WP#, 4 HOLD#. N samples are a bit (2), the clock rests
low (or high), and a wait is so many samples with CS# high as it takes at HZ samples a second (1000000), at least one. Between frames the
clock and SI move, as they do where other chips are on the bus.

With --holds a frame has holds with pulses of the clock in them, levels of HOLD# that hold nothing, or an end within a hold. With --long a
frame of 65,542 bytes comes last. What becomes of each frame is known when it is drawn: it is not read back from the samples. The account
has a row a frame: the number of the sample where CS# rises, from 0 on; 34, 4 or 0; WP#, the tail and the bytes in hex, - where there are
none. No program of the project is asked.
"""
import argparse
import random

CS, SCLK, SI, WP, HOLD = 1, 2, 4, 8, 16
LONGEST = 65541


class Capture:
    """Samples, the level of each pin as it is now, and the account."""

    def __init__(self, options):
        self.per, self.rest = options.per, SCLK if options.idle == "high" else 0
        self.samples, self.rows = bytearray(), []
        self.pins = CS | WP | HOLD | self.rest
        self.random = random.Random(options.seed)

    def set(self, pin, level):
        self.pins = self.pins | pin if level else self.pins & ~pin

    def sample(self, times=1):
        self.samples += bytes([self.pins]) * times

    # ---- between frames

    def gap(self, times):
        """CS# is high for so many samples, the one where it rose among them. Others use the bus for a while; then the clock rests."""
        left = times - 1 if self.samples else times
        busy = max(min(left - 1, self.random.randrange(40)), 0)
        for _ in range(busy):
            self.set(SCLK, self.random.randrange(2))
            self.set(SI, self.random.randrange(2))
            self.sample()
        self.set(SCLK, self.rest)
        self.sample(max(left - busy, 0))

    # ---- within a frame

    def bit(self, level, wiggle=False):
        """The clock falls with SI, and rises half a bit later. HOLD# may move while it is high: nothing is held then."""
        self.set(SCLK, 0)
        self.set(SI, level)
        self.sample(self.per // 2)
        self.set(SCLK, 1)
        self.sample()
        if wiggle and self.per - self.per // 2 > 2:
            self.set(HOLD, 0)
            self.sample()
            self.set(HOLD, 1)
            self.sample(self.per - self.per // 2 - 2)
        else:
            self.sample(self.per - self.per // 2 - 1)

    def hold(self):
        """HOLD# falls while the clock is low, or while it is high and the clock falls after it; pulses; HOLD# rises, and the clock is low."""
        if self.random.randrange(2) and self.pins & SCLK:
            self.set(HOLD, 0)
            self.sample()
        self.set(SCLK, 0)
        self.set(HOLD, 0)
        self.sample()
        for _ in range(self.random.randrange(30)):
            self.set(SCLK, self.random.randrange(2))
            self.set(SI, self.random.randrange(2))
            self.sample()
        if self.random.randrange(2) and self.pins & SCLK:
            self.set(HOLD, 1)
            self.sample()
        self.set(SCLK, 0)
        self.set(HOLD, 1)
        self.sample()

    def fall(self, wp):
        self.set(WP, wp)
        self.set(CS, 0)
        self.sample()

    def fall_with_edges(self, wp):
        """The clock moves with CS#, or HOLD# falls with it: then the hold lasts from the fall on."""
        self.set(SCLK, self.random.randrange(2))
        if self.random.randrange(3) == 0:
            self.set(SCLK, 0)
            self.set(HOLD, 0)
        self.fall(wp)
        if not self.pins & HOLD:
            self.hold()

    def rise(self, answer, wp, tail, sent):
        self.set(CS, 1)
        self.set(SI, self.random.randrange(2))
        self.rows.append((len(self.samples), answer, wp, tail, sent) if answer == 0 else (len(self.samples), answer, None, None, None))
        self.sample()
        self.set(HOLD, 1)
        self.set(WP, 1)

    def bits(self, sent, tail):
        for byte in sent:
            for place in range(7, -1, -1):
                yield byte >> place & 1
        for _ in range(tail):
            yield self.random.randrange(2)

    def frame(self, wp, tail, sent):
        self.fall(wp)
        for level in self.bits(sent, tail):
            self.bit(level)
        if not self.rest and len(sent) + tail:
            self.set(SCLK, 0)
            self.sample()
        self.rise(0 if len(sent) <= LONGEST else 4, wp, tail, sent)

    def held_frame(self, wp, tail, sent):
        """Holds at one to three places; WP# moves after the fall; now and then the end is within a hold."""
        self.fall_with_edges(wp)
        bits = list(self.bits(sent, tail))
        places = {self.random.randrange(len(bits) + 1) for _ in range(self.random.randrange(1, 4))}
        for place, level in enumerate(bits):
            if place in places:
                self.hold()
                self.set(WP, self.random.randrange(2))
            self.bit(level, self.random.randrange(4) == 0)
        ends_in_hold = self.random.randrange(3) == 0
        self.set(SCLK, 0)
        self.set(HOLD, not ends_in_hold)
        self.sample()
        if ends_in_hold:
            self.last_of_a_hold()
        else:
            self.set(SCLK, self.random.randrange(2))  # they move where CS# does, and do not count
            self.set(HOLD, self.random.randrange(2))
        self.rise(34 if ends_in_hold else 0, wp, tail, sent)
        self.set(SCLK, 0)  # a hold is over
        self.sample()

    def old_hold(self):
        """A hold begun while CS# was high, the clock high since: a pulse of CS# is 34, and another one too."""
        self.set(SCLK, 0)
        self.set(HOLD, 0)
        self.sample()
        self.set(SCLK, 1)
        self.set(HOLD, 1)
        for _ in range(2):
            self.sample()
            self.set(CS, 0)
            self.sample(1 + self.random.randrange(4))
            self.rise(34, None, None, None)
        self.set(SCLK, 0)
        self.sample()

    def last_of_a_hold(self):
        """HOLD# stays low until after the rise, rises with CS#, or rises before it while the clock is high."""
        kind = self.random.randrange(3)
        if kind == 2:
            self.set(SCLK, 1)
            self.sample()
        if kind > 0:
            self.set(HOLD, 1)
        if kind == 2:
            self.sample()


def steps(path):
    """The script's lines: (wp, tail, bytes) of a frame, and microseconds of a wait."""
    with open(path, encoding="ascii") as lines:
        for line in lines:
            fields = line.rstrip("\n").split("\t")
            if fields[0] == "F":
                yield int(fields[1]), int(fields[2]), bytes.fromhex(fields[3])
            elif fields[0] == "W":
                yield int(fields[1])
            else:
                raise SystemExit("%s: a line that is neither F nor W" % path)


def draw(options):
    capture = Capture(options)
    wait = 5
    for step in steps(options.script):
        if isinstance(step, int):
            wait += -(-step * options.rate // 1000000)
            continue
        capture.gap(max(wait, 1))
        wait = 0
        if options.holds and capture.random.randrange(4):
            capture.held_frame(*step)
            if capture.random.randrange(20) == 0:
                capture.old_hold()
        else:
            capture.frame(*step)
    if options.long:
        capture.gap(3)
        capture.frame(1, 0, bytes(i * 7 & 255 for i in range(LONGEST + 1)))
    capture.gap(wait + 2)
    return capture


def main():
    parser = argparse.ArgumentParser()
    for name in ("script", "capture", "account"):
        parser.add_argument(name)
    parser.add_argument("--per", type=int, default=2)
    parser.add_argument("--idle", choices=("low", "high"), default="low")
    parser.add_argument("--rate", type=int, default=1000000)
    parser.add_argument("--seed", type=int, default=1)
    parser.add_argument("--holds", action="store_true")
    parser.add_argument("--long", action="store_true")
    options = parser.parse_args()
    capture = draw(options)
    with open(options.capture, "wb") as file:
        file.write(capture.samples)
    with open(options.account, "w", encoding="ascii") as file:
        for sample, answer, wp, tail, sent in capture.rows:
            sent = "-" if not sent else sent.hex().upper()
            file.write("%d\t%d\t%s\t%s\t%s\n" % (sample, answer, "-" if wp is None else wp, "-" if tail is None else tail, sent))


main()
