#!/usr/bin/env python3
"""Makes the test vectors of all instructions by os2vectors, with what the manual leaves undefined.

  opcodes                    a line for each opcode: its word for os2vectors, and the flags that are undefined after it
  metadata                   the same as JSON: by opcode the pattern `flags` and the mask `flags-mask`, as the processor tests that
                             emulators share have them
  suite FOLDER [OPCODE ..]   a file OPCODE.json for each opcode, or for those that are named, and metadata.json beside them;
                             with --traps N at most N of 100 vectors of an opcode end by an exception, which half of them do otherwise

A flag is named by its letter in `odiszapc`: overflow, direction, interrupt, sign, zero, auxiliary carry, parity and carry. A mask has a 1 for
each flag that is defined: what an emulator leaves in the flags is compared under it.
"""
import json
import os
import subprocess
import sys

sys.dont_write_bytecode = True
sys.path.insert(0, os.path.join(os.path.dirname(os.path.realpath(__file__)), "lib"))
import command

# The opcodes of the 80286's instructions, with the digit in ModRM where that chooses the instruction; then those that repeat.
OPCODES = """
    00-0E 10-25 27-2D 2F-35 37-3D 3F-63 68-7F 80.0-80.7 81.0-81.7 83.0-83.7 84-8E 8F.0 90-BF C0.0-C0.5 C0.7 C1.0-C1.5 C1.7 C2-C5 C6.0 C7.0 C8-CF
    D0.0-D0.5 D0.7 D1.0-D1.5 D1.7 D2.0-D2.5 D2.7 D3.0-D3.5 D3.7 D4 D5 D7-EF F4 F5 F6.0 F6.2-F6.7 F7.0 F7.2-F7.7 F8-FD FE.0 FE.1 FF.0-FF.6
    0F00.0-0F00.5 0F01.0-0F01.4 0F01.6 0F02 0F03 0F06
    F26C-F26F F2A4-F2A7 F2AA-F2AF F36C-F36F F3A4-F3A7 F3AA-F3AF
"""
# The flags that each instruction's page of the Intel 80286 Programmer's Reference Manual has as undefined, by opcodes; after all others
# each flag is defined. What a shift or a rotation by more than one leaves of the overflow flag is undefined, and so it is here for each that
# takes its count from a byte or from CL.
UNDEFINED = (
    ("a", "08-0D 20-25 30-35 80.1 80.4 80.6 81.1 81.4 81.6 83.1 83.4 83.6 84 85 A8 A9 F6.0 F7.0"),  # OR, AND, XOR, TEST
    ("o", "27 2F"),  # DAA, DAS
    ("oszp", "37 3F"),  # AAA, AAS
    ("oac", "D4 D5"),  # AAM, AAD
    ("szap", "69 6B F6.4 F6.5 F7.4 F7.5"),  # MUL, IMUL
    ("oszapc", "F6.6 F6.7 F7.6 F7.7"),  # DIV, IDIV
    ("a", "D0.4 D0.5 D0.7 D1.4 D1.5 D1.7"),  # SHL, SHR, SAR by 1
    ("oa", "C0.4 C0.5 C0.7 C1.4 C1.5 C1.7 D2.4 D2.5 D2.7 D3.4 D3.5 D3.7"),  # SHL, SHR, SAR
    ("o", "C0.0-C0.3 C1.0-C1.3 D2.0-D2.3 D3.0-D3.3"),  # ROL, ROR, RCL, RCR
)
LETTERS = "odiszapc"
# How many vectors os2vectors makes at most.
MOST = 1_000_000
BITS = {"o": 0x800, "d": 0x400, "i": 0x200, "s": 0x080, "z": 0x040, "a": 0x010, "p": 0x004, "c": 0x001}


def listed(text):
    """The opcodes that a text lists, with all those of a range."""
    for word in text.split():
        first, _, last = word.partition("-")
        head, dot, reg = first.partition(".")
        if not last:
            yield first
        elif dot:
            yield from (f"{head}.{digit}" for digit in range(int(reg), int(last.partition(".")[2]) + 1))
        else:
            yield from (f"{number:0{len(first)}X}" for number in range(int(first, 16), int(last, 16) + 1))


# The letters of what is undefined after each opcode.
FLAGS = {opcode: "" for opcode in listed(OPCODES)}
FLAGS.update({opcode: letters for letters, text in UNDEFINED for opcode in listed(text)})


def undefined(opcode):
    """The flags that are undefined after an opcode, as bits."""
    return sum(BITS[letter] for letter in FLAGS[opcode])


def entry(opcode):
    """What the metadata tell of an opcode. A pattern has the letter of each flag that is undefined, and a dot for one that is defined."""
    told = {"status": "normal"}
    if FLAGS[opcode]:
        told["flags"] = "".join(letter if letter in FLAGS[opcode] else "." for letter in LETTERS)
        told["flags-mask"] = 0xFFFF & ~undefined(opcode)
    return told


def metadata(opcodes):
    """The metadata of some opcodes. Those that ModRM chooses stand under the first byte, in `reg`."""
    rows = {}
    for opcode in opcodes:
        head, dot, reg = opcode.partition(".")
        if dot:
            rows.setdefault(head, {"reg": {}})["reg"][reg] = entry(opcode)
        else:
            rows[head] = entry(opcode)
    return {"cpu": "80286", "mode": "protected", "opcodes": rows}


def made(program, opcode, count, seed):
    """The vectors of an opcode, as os2vectors writes them: a line each, between one of `[` and one of `]`."""
    run = subprocess.run([program, opcode, str(count), str(seed)], stdin=subprocess.DEVNULL, capture_output=True)
    if run.returncode:
        sys.exit(f"tools/vectors.py: os2vectors {opcode}: status {run.returncode}: {run.stderr.decode(errors='replace').strip()}")
    return [line.rstrip(b",") for line in run.stdout.splitlines()[1:-1]]


def chosen(program, opcode, count, seed, traps):
    """So many vectors of an opcode. With `traps` at most so many of a hundred end by an exception: the first of them that os2vectors makes, among
    eight times as many. An opcode that hardly ever does anything else has more."""
    if traps is None:
        return made(program, opcode, count, seed)
    rows = made(program, opcode, min(8 * count, MOST), seed)
    is_trap = [b'"trap"' in row[: row.index(b"}")] for row in rows]
    left, kept = max(count * traps // 100, count - is_trap.count(False)), []
    for row, trap in zip(rows, is_trap):
        if len(kept) < count and (left or not trap):
            left -= trap
            kept.append(row)
    return kept


def suite(folder, opcodes, count, seed, traps):
    """Writes the vectors of some opcodes, and their metadata, into a new or empty folder."""
    program = command.program("os2vectors")
    if not program:
        return 1
    try:
        os.makedirs(folder, exist_ok=True)
        if os.listdir(folder):
            return f"tools/vectors.py: {folder} isn't empty"
        for opcode in opcodes:
            with open(os.path.join(folder, opcode + ".json"), "wb") as out:
                out.write(b"\n".join([b"[", *filter(None, [b",\n".join(chosen(program, opcode, count, seed, traps))]), b"]", b""]))
        with open(os.path.join(folder, "metadata.json"), "w", encoding="ascii") as out:
            json.dump({**metadata(opcodes), "count": count, "seed": seed, **({} if traps is None else {"traps": traps})}, out, indent=1)
            out.write("\n")
    except OSError as error:
        return f"tools/vectors.py: {folder}: {error.strerror}"
    print(f"{len(opcodes)} opcodes, {count} vectors each, in {folder}")
    return 0


def opcode(word):
    """A word that is an opcode of the list."""
    if word.upper() not in FLAGS:
        raise ValueError
    return word.upper()


def main():
    parser = command.parser("tools/vectors.py", __doc__)
    kinds = parser.add_subparsers(dest="kind", required=True, metavar="KIND")
    kinds.add_parser("opcodes", help="the list of opcodes")
    kinds.add_parser("metadata", help="the list as JSON, with masks")
    words = kinds.add_parser("suite", help="the vectors of all opcodes")
    words.add_argument("folder", metavar="FOLDER", help="a new or empty folder")
    words.add_argument("opcodes", metavar="OPCODE", nargs="*", type=opcode, help="as `opcodes` lists them; all where none is named")
    words.add_argument("--count", metavar="N", type=command.number(0, MOST), default=1000, help="how many vectors each opcode has; 1000 if it isn't given")
    words.add_argument("--seed", metavar="N", type=command.number(0, 10**18 - 1), default=1, help="a number; the same one gives the same vectors; 1 if it isn't given")
    words.add_argument("--traps", metavar="N", type=command.number(0, 100), help="at most so many of 100 end by an exception, if the opcode can do otherwise; as they come if it isn't given")
    given = parser.parse_args()
    if given.kind == "suite":
        return suite(given.folder, list(dict.fromkeys(given.opcodes)) or list(FLAGS), given.count, given.seed, given.traps)
    if given.kind == "metadata":
        print(json.dumps(metadata(FLAGS), indent=1))
    else:
        for row, letters in FLAGS.items():
            print(f"{row} {letters}".rstrip())
    return 0


if __name__ == "__main__":
    command.end(main)
