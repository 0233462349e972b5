#!/usr/bin/env python3
"""Makes a guest: a stored form of version 1 and its memory, to standard output.

  tools/image.py --hex "00 76" | target/bin/show
  tools/image.py --frames 2 --pc 0x100 --at 0x100 --hex "3E 05 76" --set ssp=0x2000 --set d16=0x0018 > guest.img
  tools/image.py --frames 16 --file program.bin > guest.img

Numbers are decimal, or hexadecimal with 0x. Memory not given is zero.
"""
import argparse
import sys

REGISTERS = ["af", "bc", "de", "hl", "af2", "bc2", "de2", "hl2", "ix", "iy", "pc", "ssp", "usp"]
# Fields of the stored form and their widths in bits, in order (document 01, "Stored form").
FIELDS = (
    [("version", 8), ("less", 4)]
    + [(name, 16) for name in REGISTERS]
    + [("bankaf", 1), ("bankx", 1), ("msr", 16), ("tcr", 3), ("iopage", 8), ("limit", 12), ("vector", 12), ("mmu", 16)]
    + [("d%d" % i, 16) for i in range(32)]
    + [("padding", 7)]
)
FRAME = 4096


def form(values):
    """The 101 bytes in which each field has its value, or 0; no value is tested beyond its width."""
    number = 0
    for name, width in FIELDS:
        value = values.get(name, 0)
        if not 0 <= value < 1 << width:
            raise ValueError("%s: %d does not fit %d bits" % (name, value, width))
        number = number << width | value
    return number.to_bytes(101, "big")


def memory(frames, pieces):
    """Frames of zeros, with the bytes of each piece from its address on."""
    ram = bytearray(frames * FRAME)
    for address, content in pieces:
        if address + len(content) > len(ram):
            raise ValueError("%d bytes at %04Xh are past %d frames" % (len(content), address, frames))
        ram[address : address + len(content)] = content
    return bytes(ram)


def number(text):
    return int(text, 0)


def assignment(text):
    name, _, value = text.partition("=")
    names = [field for field, _ in FIELDS]
    if name not in names or not value:
        raise argparse.ArgumentTypeError("NAME=NUMBER, where NAME is one of " + " ".join(names))
    # The form has the upper 12 bits of stack limit and vector pointer.
    return name, number(value) // 16 if name in ("limit", "vector") else number(value)


class Piece(argparse.Action):
    """--hex and --file: bytes at the address of the --at before them."""

    def __call__(self, parser, namespace, value, option=None):
        content = bytes.fromhex(value) if option == "--hex" else open(value, "rb").read()
        namespace.pieces = (namespace.pieces or []) + [(namespace.at, content)]


def main():
    parser = argparse.ArgumentParser(description=__doc__, formatter_class=argparse.RawDescriptionHelpFormatter)
    parser.add_argument("--frames", type=number, default=1, help="frames of 4,096 bytes, 1 to 16 (default 1)")
    parser.add_argument("--pc", type=number, help="the same as --set pc=NUMBER")
    parser.add_argument("--set", dest="values", type=assignment, action="append", default=[], metavar="NAME=NUMBER",
                        help="a register (%s bankaf bankx), a control register (msr tcr iopage limit vector mmu) or a descriptor (d0 to d31)" % " ".join(REGISTERS))
    parser.add_argument("--at", type=number, default=0, help="where the next bytes go (default 0)")
    parser.add_argument("--hex", action=Piece, help='bytes, as "00 76"')
    parser.add_argument("--file", action=Piece, help="bytes of a file")
    parser.set_defaults(pieces=[])
    chosen = parser.parse_args()
    values = {"version": 1, "less": chosen.frames - 1}
    values.update(chosen.values)
    if chosen.pc is not None:
        values["pc"] = chosen.pc
    try:
        sys.stdout.buffer.write(form(values) + memory(chosen.frames, chosen.pieces))
    except ValueError as wrong:
        sys.exit("image.py: %s" % wrong)


if __name__ == "__main__":
    main()
