"""Core images: what os2core shows of one, and for what it refuses damaged ones, against a reader of its own."""
import os
import re
import subprocess

import core_image
import core_shown
import trying
from core_image import segment
from trying import check_words, program, said, wrong

SHOWN = """\
memory 1024 bytes, swap device 4 blocks, 5 segments, 2 processes
1000 steps, 28 console bytes

memory
  000000h 000040h  free
  000040h 000060h  segment 1: 20 bytes, 20 kept, flags 01h, lock 0; held by 1:001Fh
  000060h 000100h  free
  000100h 000200h  segment 3: 256 bytes, 256 kept, flags 01h, lock 2; held by 1:002Fh
  000200h 000400h  free

not in memory
  segment 0: 25 bytes, 25 kept, flags 0Dh, lock 0, clean; image 1:1; held by 1:0017h
  segment 2: 600 bytes, 600 kept, flags 01h, lock 0; blocks 2 0; held by 1:0027h
  segment 4: 4096 bytes, 0 kept, flags 01h, lock 0; zeros; held by 2:001Fh

swap device, 2 of 4 blocks in use
      0 segment 2 from 0200h
      2 segment 2 from 0000h

process 1 lives
  AX=0001 BX=0000 CX=0000 DX=0000 SI=0000 DI=0000 BP=0000 SP=01FE FL=0002
  CS:IP=0017:0010 DS=001F ES=0000 SS=001F
  0017h segment 0, held 1 times, base 000000h, limit 0018h, access 7Bh
  001Fh segment 1, held 1 times, base 000040h, limit 0013h, access F3h, present
  0027h segment 2, held 2 times, base 000000h, limit 0257h, access 73h
  002Fh segment 3, held 1 times, base 000100h, limit 00FFh, access F3h, present

process 2 was ended by exception 13
  AX=0000 BX=0000 CX=0000 DX=0000 SI=0000 DI=0000 BP=0000 SP=0000 FL=0002
  CS:IP=0017:0007 DS=001F ES=0000 SS=001F
  001Fh segment 4, held 1 times, base 000000h, limit 0FFFh, access 73h
"""


def judged(file):
    """Why a file is no core image, as os2core says it, or None."""
    try:
        core_image.Read(file)
    except core_image.Refused as why:
        return str(why)
    return None


def damaged(file):
    """Images with each byte changed, those of the head, of the entries and of the processes in six ways; each front of the image; and the
    image with something behind it."""
    memory = file.index(b"Hello, world") - 64
    for at in range(len(file)):
        told = at < memory or at >= memory + 1024
        for byte in (0, 1, 2, 4, 255, file[at] ^ 1) if told else (file[at] ^ 255,):
            if byte != file[at]:
                yield file[:at] + bytes([byte]) + file[at + 1 :]
    for at in range(len(file)):
        yield file[:at]
    yield file + b"\0"


def check_damage(file):
    refused = 0
    for one in damaged(file):
        with open("damaged.core", "wb") as out:
            out.write(one)
        why = judged(one)
        refused += why is not None
        trying.count()
        run = subprocess.run([program("os2core"), "segment", "damaged.core", "0"], stdin=subprocess.DEVNULL, capture_output=True, text=True)
        wanted = (0, "") if why is None else (1, f"os2core: damaged.core is no core image: {why}\n")
        if (run.returncode, run.stderr) != wanted and not (why is None and run.stderr == "os2core: there is no segment 0\n"):
            wrong(f"os2core over a damaged image: {run.returncode}, {run.stderr!r}; wanted {wanted!r}")
            return
    if refused < len(file) + 300:
        wrong(f"only {refused} damaged images were refused")


def check_shown(name, text, *words):
    trying.count()
    status, shown = said("os2core", *words)
    if status or shown != text:
        wrong(f"os2core {' '.join(words)}: status {status}, {shown!r}; wanted {text!r}")


def listing(bytes_, head):
    """A segment's bytes, sixteen a line."""
    rows = [head]
    for at in range(0, len(bytes_), 16):
        line = bytes_[at : at + 16]
        rows.append(f"  {at:04X}  {line.hex().upper()}  {''.join(chr(b) if 32 <= b < 127 else '.' for b in line)}")
    return "\n".join(rows) + "\n"


def check_core():
    small = core_image.small()
    with open("small.core", "wb") as out:
        out.write(small)
    with open(os.path.join(trying.EXAMPLES, "small.core"), "rb") as file:
        trying.count()
        if file.read() != small:
            wrong("examples/small.core isn't what tools/core_image.py makes")
    check_shown("show", SHOWN, "show", "small.core")
    contents = {
        0: (bytes(25), "25 bytes, 25 kept, flags 0Dh, lock 0, clean; image 1:1"),
        1: (b"Hello, world\r\n".ljust(20, b"\0"), "20 bytes, 20 kept, flags 01h, lock 0; memory 000040h"),
        2: (b"a" * 512 + b"b" * 88, "600 bytes, 600 kept, flags 01h, lock 0; blocks 2 0"),
        3: (bytes(range(256)), "256 bytes, 256 kept, flags 01h, lock 2; memory 000100h"),
        4: (bytes(4096), "4096 bytes, 0 kept, flags 01h, lock 0; zeros"),
    }
    for number, (bytes_, text) in contents.items():
        check_shown("segment", listing(bytes_, f"segment {number}: {text}"), "segment", "small.core", str(number))
    check_shown("difference", "nothing differs\n", "difference", "small.core", "small.core")
    with open("other.core", "wb") as out:
        memory = bytearray(1024)
        memory[0x100:0x200] = bytes(range(256))
        memory[0x101] = 0xEE
        out.write(core_image.image(bytes(memory), 4, [segment(20, 0, None, 1), segment(256, 256, ("memory", 256), 1, 2)], [], 1001, 28))
    check_difference()
    check_forms()
    check_discarded()
    check_damage(small)
    check_picture()
    check_words("os2core", ["show"], {"show": (), "svg": (), "segment": ("NUMBER",), "difference": ("OTHER",)})


def check_forms():
    """Images of the second form tell of discarded segments; those of the first form can't."""
    for form, gone in ((2, 1), (2, 0), (1, 0)):
        with open("form.core", "wb") as out:
            out.write(core_image.image(bytes(64), 0, [segment(16, 0, None, 4, gone=gone, form=form)], [], form=form))
        marks = ", discarded" if gone else ""
        check_shown(f"form {form}", listing(bytes(16), f"segment 0: 16 bytes, 0 kept, flags 04h, lock 0{marks}; zeros"), "segment", "form.core", "0")


DISCARDED = """\
memory 64 bytes, swap device 1 blocks, 2 segments, 1 processes
7 steps, 0 console bytes

memory
  000000h 000010h  free
  000010h 000030h  segment 0: 32 bytes, 32 kept, flags 04h, lock 0; held by 1:0027h
  000030h 000040h  free

not in memory
  segment 1: 16 bytes, 0 kept, flags 04h, lock 0, discarded; zeros; held by 1:002Fh

swap device, 0 of 1 blocks in use

process 1 lives
  AX=0000 BX=0000 CX=0000 DX=0000 SI=0000 DI=0000 BP=0000 SP=0000 FL=0002
  CS:IP=000F:0000 DS=0000 ES=0000 SS=0000
  0027h segment 0, held 1 times, base 000010h, limit 001Fh, access F3h, present
  002Fh segment 1, held 2 times, base 000000h, limit 000Fh, access 73h
"""


def check_discarded():
    """A discarded segment is told as such, and has a hollow square in the legend of a picture."""
    for name, gone in (("discarded.core", 1), ("kept.core", 0)):
        segments = [segment(32, 32, ("memory", 16), 4), segment(16, 0, None, 4, gone=gone)]
        entries = [core_image.held(4, 31, 16, 0xF3, 0, 1), core_image.held(5, 15, 0, 0x73, 1, 2)]
        with open(name, "wb") as out:
            out.write(core_image.image(bytes(64), 1, segments, [core_image.process(1, 0, 0, entries, flags=2, cs=0x0F)], 7))
    check_shown("show", DISCARDED, "show", "discarded.core")
    lines = ["- segment 1: 16 bytes, 0 kept, flags 04h, lock 0; zeros", "+ segment 1: 16 bytes, 0 kept, flags 04h, lock 0, discarded; zeros"]
    check_shown("difference", "\n".join(lines) + "\n", "difference", "kept.core", "discarded.core")
    trying.count()
    status, text = said("os2core", "svg", "discarded.core")
    keys = re.findall(r'<rect x="(\d+)" y="456" width="16" height="16" (.*)/>\n<text .*>(.*)</text>', text)
    wanted = [("0", 'fill="hsl(275,65%,72%)"', "1:0027, segment 0, 32 bytes"),
              ("240", 'fill="none" stroke="hsl(72,65%,72%)" stroke-width="2"', "1:002F, segment 1, 16 bytes, discarded")]
    if status or keys != wanted:
        wrong(f"os2core svg of a discarded segment: status {status}, {keys}; wanted {wanted}")


def check_difference():
    trying.count()
    status, text = said("os2core", "difference", "small.core", "other.core")
    lines = text.splitlines()
    wanted = ["- 1000 steps", "+ 1001 steps", "- segment 1: 20 bytes, 20 kept, flags 01h, lock 0; memory 000040h",
              "+ segment 1: 256 bytes, 256 kept, flags 01h, lock 2; memory 000100h", "- process 1 lives"]
    cores = []
    for name in ("small.core", "other.core"):
        with open(name, "rb") as file:
            cores.append(core_image.Read(file.read()))
    whole = list(core_shown.difference_lines(*cores))
    if status or any(line not in lines for line in wanted) or "- 28 console bytes" in lines or lines != whole:
        wrong(f"os2core difference: status {status}, {text!r}; wanted {wanted!r} among its lines")


def check_picture():
    """Each segment in memory and each block in use has its rectangles, in the colour of its first holder; its name and its size stand in them
    where they are wide enough, and both in the legend. Each row has its address."""
    trying.count()
    status, text = said("os2core", "svg", "small.core")
    written = re.findall(r"<text [^>]*>([^<]*)</text>", text)
    title = "Memory of 1024 bytes and 4 swap blocks after 1000 steps"
    wide = ["1:001F 20 bytes", *["1:002F 256 bytes"] * 4]
    keys = ["1:0017, segment 0, 25 bytes", "1:001F, segment 1, 20 bytes", "1:0027, segment 2, 600 bytes", "1:002F, segment 3, 256 bytes", "2:001F, segment 4, 4096 bytes"]
    wanted = [title, *(f"{64 * row:06X}h" for row in range(16)), *wide, "blocks", *["1:0027 600 bytes"] * 2, *keys, "light grey: free; dark grey: held by no process"]
    if written != wanted:
        wrong(f"os2core svg: {written}; wanted {wanted}")
    fills = {"1:0017": "hsl(320,65%,72%)", "1:001F": "hsl(117,65%,72%)", "1:0027": "hsl(275,65%,72%)", "1:002F": "hsl(72,65%,72%)", "2:001F": "hsl(122,65%,62%)"}
    parts = [(0, 24, 480, fills["1:001F"], keys[1] + ", 000040h"),
             *((0, 24 * (4 + k), 960, fills["1:002F"], f"{keys[3]}, {256 + 64 * k:06X}h") for k in range(4)),
             (0, 408, 240, fills["1:0027"], keys[2] + ", block 0"), (480, 408, 240, fills["1:0027"], keys[2] + ", block 2")]
    whole = (title, parts, [(core_shown.square(fills[key.partition(",")[0]], False), key) for key in keys])
    if status or core_shown.picture_shown(text) != whole or core_shown.picture(core_image.Read(core_image.small())) != whole:
        wrong(f"os2core svg: status {status}, {core_shown.picture_shown(text)}; wanted {whole}")
    trying.count()
    if len({core_shown.colour((process, index)) for process in range(1, 5) for index in range(1, 17)}) != 64:
        wrong("the colours of sixteen indexes of four processes aren't 64")
