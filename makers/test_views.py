#!/usr/bin/env python3
"""Writes the expected output of crates/test_views.

What a page view is, is computed here from the scope's last lines of "Commands" and its rule for addresses, and nothing else; no
program of the project is asked. Lengths, addresses and cells are those that crates/test_views/src/main.rt names. Run it
from the project's root.
"""
MODELS = (65536, 262144)
LENGTHS = MODELS + (0, 1, 256, 65535, 65537, 131072)
ADDRESSES = (0x000000, 0x0000FF, 0x000100, 0x008080, 0x00FF00, 0x00FFFF, 0x010000, 0x020180, 0x03FF00, 0x03FFFF,
             0x040000, 0x05ABCD, 0xFFFFFF, 0xFFFFFFFF)


def cell(i):
    return (i + 3 * (i // 256) + 7 * (i // 65536)) % 256


def view(cells, address):
    """The page that the address falls in, modulo the length; of an array that no model has, nothing."""
    if len(cells) not in MODELS:
        return b""
    first = address % len(cells) // 256 * 256
    return cells[first:first + 256]


def main():
    cells = bytes(cell(i) for i in range(max(MODELS)))
    pages = {cells[i:i + 256] for i in range(0, 65536, 256)}
    assert len(pages) == 256  # no page of model 1 can pass for another
    with open("crates/test_views/stdout", "w", newline="") as f:
        f.write("length\taddress\tcells\tview\n")
        for n in LENGTHS:
            for address in ADDRESSES:
                seen = view(cells[:n], address)
                f.write("%d\t%06x\t%d\t%s\n" % (n, address, len(seen), seen.hex().upper()))


if __name__ == "__main__":
    main()
