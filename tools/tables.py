#!/usr/bin/env python3
"""Writes the nine tables src/none.rt .. src/fd_ed.rt and the constants src/op.rt of crates/decode from the formats in its specs/.

With --check it writes nothing, and its exit status is 1 where a file differs. The tables are not trusted: each is proved equal to its
formats."""
import os
import re
import sys

os.chdir(os.path.join(os.path.dirname(os.path.abspath(__file__)), "..", "crates", "decode"))

OPENINGS = [("None", "none", ""), ("Cb", "cb", "CB "), ("Ed", "ed", "ED "), ("Dd", "dd", "DD "), ("Fd", "fd", "FD "),
            ("DdCb", "dd_cb", "DD CB d "), ("FdCb", "fd_cb", "FD CB d "), ("DdEd", "dd_ed", "DD ED "), ("FdEd", "fd_ed", "FD ED ")]


CHECK = sys.argv[1:] == ["--check"]
DIFFER = []


def put(path, text):
    if not CHECK:
        open(path, "w").write(text)
    elif open(path).read() != text:
        DIFFER.append(path)


def numbers(file):
    return {m[1]: int(m[2]) for m in re.finditer(r"^(\S+) = (\d+)$", open(f"specs/{file}.antt").read(), re.M)}


def formats(file):
    lines = re.finditer(r'^ *format "(\S{8})" +(\S+) +(\S+) +(\d) (\d) ∷', open(f"specs/{file}.antt").read(), re.M)
    return [(m[1], OP[m[2]], MODE[m[3]], int(m[4]), int(m[5])) for m in lines]


def fits(pattern, b):
    return all(c not in "01" or c == bit for c, bit in zip(pattern, f"{b:08b}"))


def entry(rows, b):
    for pattern, op, mode, reads, follow in rows:
        if fits(pattern, b):
            return op * 512 + (3 if reads == 4 else reads) * 128 + mode * 8 + follow
    return 0


def table(file, name, title):
    rows = formats(file)
    head = "no opening byte" if title == "" else title.strip()
    text = f"""// The entries of the operation codes after {head}.
ghost use Rattle.std.specs.Prelude.{{◌≡◌}};
ghost use Rattle.decode.specs.Format.{{entry_of, values}};
ghost use Rattle.decode.specs.{file}.{{formats_{name}}};

const {name.upper()}: [u16; 256] = [
"""
    for b in range(256):
        text += f"    {entry(rows, b)}, // {title}{b:02X}\n"
    text += f"""];

pub fn table() -> [u16; 256]
    ensures {{ result ≡ values (entry_of formats_{name}) 0 256 }}
{{
    {name.upper()}
}}
"""
    put(f"src/{name}.rt", text)


OPERATIONS = """\
// The operations by number, named as in specs/Op.antt. They are no enum: an entry holds the number in seven bits, and the definitions of
// what an operation does are a list in the order of the numbers; a conversion would be a match of all 115 before the match that chooses.
"""


def constants():
    lines = [f"pub const {name.upper()}: u8 = {number};\n" for name, number in OP.items()]
    put("src/op.rt", OPERATIONS + "\n".join(lines))


def counts(file):
    """How many codes are built, ports, left out, extended, open another sequence, are undefined."""
    row = [0] * 6
    for op in (entry(formats(file), b) // 512 for b in range(256)):
        row[5 if op == 0 else op + 1 if op < 4 else 1 if 6 <= op < 12 else 0] += 1
    return row


def documented():
    """The same as docs/ENCODINGS.md has them."""
    rows = re.findall(r"^\| (none|(?:[A-F]{2}|CB|d| )+) \| (\d.*) \|$", open("../../docs/ENCODINGS.md").read(), re.M)
    return {name: [int(n) for n in row.split(" | ")] for name, row in rows}


OP, MODE = numbers("Op"), numbers("Mode")
for opening in OPENINGS:
    table(*opening)
constants()
if CHECK:
    told = documented()
    DIFFER += [f"docs/ENCODINGS.md ({t.strip() or 'none'})" for f, _, t in OPENINGS if told.get(t.strip() or "none") != counts(f)]
    print("tables: " + (", ".join(DIFFER) + " differ from the formats" if DIFFER else "9 as the formats give them, counts as docs/ENCODINGS.md has them"))
    sys.exit(1 if DIFFER else 0)
