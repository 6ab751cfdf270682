"""What os2core has to write of core images, from what core_image reads of them."""
import re


def selector(index):
    return f"{8 * index + 7:04X}h"


def fields(entry):
    marks = (", clean" if entry.clean else "") + (", discarded" if entry.gone else "")
    return f"{entry.size} bytes, {entry.kept} kept, flags {entry.flags:02X}h, lock {entry.lock}{marks}"


def place(entry):
    """Where the kept bytes of a segment are."""
    if entry.place is None:
        return "zeros"
    kind, *where = entry.place
    if kind == "image":
        return f"environment of process {where[1]}" if where[0] == 0 else f"image {where[0]}:{where[1]}"
    return f"memory {where[0]:06X}h" if kind == "memory" else "blocks" + "".join(f" {number}" for number, _ in where[0])


def holders(core, number):
    held = [(pid, index) for pid, (*_, entries) in core.processes.items() for index, entry in entries.items() if entry[3] == number]
    return " ".join(f"{pid}:{selector(index)}" for pid, index in sorted(held)) or "-"


def memory_lines(core):
    """The memory by its addresses: segments in whole paragraphs of 16 bytes, and the gaps between them."""
    at = 0
    ranges = [(entry.place[1], number, entry) for number, entry in enumerate(core.segments) if entry.place and entry.place[0] == "memory"]
    for base, number, entry in sorted(ranges, key=lambda it: it[0]):
        if base > at:
            yield f"  {at:06X}h {base:06X}h  free"
        at = base + -(-entry.size // 16) * 16
        yield f"  {base:06X}h {at:06X}h  segment {number}: {fields(entry)}; held by {holders(core, number)}"
    if core.size > at:
        yield f"  {at:06X}h {core.size:06X}h  free"


def absent_lines(core):
    for number, entry in enumerate(core.segments):
        if not entry.place or entry.place[0] != "memory":
            yield f"  segment {number}: {fields(entry)}; {place(entry)}; held by {holders(core, number)}"


def uses(core):
    """The blocks in use by their numbers, each with the segment and the offset of its first byte there."""
    swapped = [(number, entry.place[1]) for number, entry in enumerate(core.segments) if entry.place and entry.place[0] == "swap"]
    return sorted((block, number, 512 * k) for number, held in swapped for k, (block, _) in enumerate(held))


def process_lines(pid, process):
    """The state of a process, its registers in two lines, and what it holds."""
    state, code, registers, entries = process
    word = {name.upper(): f"{value:04X}" for name, value in registers.items()}
    ended = ("lives", f"has ended with code {code}", f"was ended by exception {code}")[state]
    yield f"process {pid} {ended}"
    yield " ".join(f"{name}={word[name]}" for name in ("AX", "BX", "CX", "DX", "SI", "DI", "BP", "SP")) + f" FL={word['FLAGS']}"
    yield f"CS:IP={word['CS']}:{word['IP']} DS={word['DS']} ES={word['ES']} SS={word['SS']}"
    for index, (limit, base, access, number, holds) in entries.items():
        present = ", present" if access & 0x80 else ""
        yield f"{selector(index)} segment {number}, held {holds} times, base {base:06X}h, limit {limit:04X}h, access {access:02X}h{present}"


def show_lines(core):
    yield f"memory {core.size} bytes, swap device {core.blocks} blocks, {len(core.segments)} segments, {len(core.processes)} processes"
    yield f"{core.steps} steps, {core.console} console bytes"
    yield from ("", "memory", *memory_lines(core))
    yield from ("", "not in memory", *absent_lines(core))
    used = uses(core)
    yield from ("", f"swap device, {len(used)} of {core.blocks} blocks in use")
    yield from (f"  {block:>5} segment {number} from {at:04X}h" for block, number, at in used)
    for pid, process in core.processes.items():
        first, *rest = process_lines(pid, process)
        yield from ("", first, *(f"  {line}" for line in rest))


def content(entry):
    """The bytes of a segment, with zeros for those that stay with an image."""
    return bytes(entry.size) if entry.bytes is None else entry.bytes


def segment_lines(core, number):
    """A segment's bytes, sixteen a line."""
    entry = core.segments[number]
    yield f"segment {number}: {fields(entry)}; {place(entry)}"
    held = content(entry)
    for at in range(0, entry.size, 16):
        line = held[at : at + 16]
        yield f"  {at:04X}  {line.hex().upper()}  {''.join(chr(byte) if 32 <= byte < 127 else '.' for byte in line)}"


def first_holder(core, number):
    """The first process that holds a segment, and the first index at which it does, or None."""
    held = [(pid, index) for pid, (*_, entries) in core.processes.items() for index, entry in entries.items() if entry[3] == number]
    return min(held, default=None)


def colour(holder):
    """A colour of 64 for a holder, whatever image it stands in: sixteen indexes go around the wheel, and processes are darker one by one."""
    if holder is None:
        return "#999999"
    tone, place = divmod((16 * holder[0] + holder[1]) % 64, 16)
    return f"hsl({place * 7 % 16 * 45 // 2 + 5 * tone},65%,{82 - 10 * tone}%)"


def drawn(core, number):
    """The colour of a segment in a picture, and its words."""
    holder = first_holder(core, number)
    name = "no process" if holder is None else f"{holder[0]}:{8 * holder[1] + 7:04X}"
    gone = ", discarded" if core.segments[number].gone else ""
    return colour(holder), f"{name}, segment {number}, {core.segments[number].size} bytes{gone}"


def picture_parts(core):
    """Left, top, width, colour and title of each part of the picture, 960 points wide: the memory in sixteen rows, 24 points apart, and the blocks
    in one more."""
    row = -(-core.size // 16)
    for number, entry in sorted(enumerate(core.segments), key=lambda it: it[1].place[1] if it[1].place and it[1].place[0] == "memory" else 0):
        if entry.place and entry.place[0] == "memory":
            fill, words = drawn(core, number)
            at, end = entry.place[1], entry.place[1] + -(-entry.size // 16) * 16
            while at < end:
                line = at // row
                to = min((line + 1) * row, end)
                left, right = ((place - line * row) * 960 // row for place in (at, to))
                yield left, 24 * line, max(right - left, 1), fill, f"{words}, {at:06X}h"
                at = to
    for block, number, _ in uses(core):
        fill, words = drawn(core, number)
        left, right = (place * 960 // core.blocks for place in (block, block + 1))
        yield left, 408, max(right - left, 1), fill, f"{words}, block {block}"


def square(colour, is_gone):
    """How a segment's square in the legend is drawn: hollow where the segment was discarded."""
    return f'fill="none" stroke="{colour}" stroke-width="2"' if is_gone else f'fill="{colour}"'


def legend(core):
    """Square and words of each segment that is held, by its first holder."""
    numbers = sorted((number for number in range(len(core.segments)) if first_holder(core, number)), key=lambda number: first_holder(core, number))
    return [(square(fill, core.segments[number].gone), words) for number in numbers for fill, words in [drawn(core, number)]]


def picture_title(core):
    return f"Memory of {core.size} bytes and {core.blocks} swap blocks after {core.steps} steps"


def picture_shown(text):
    """The title, the parts and the legend of a picture that was drawn, whose ground is as large as all of it; or None."""
    box = re.search(r'width="(\d+)" height="(\d+)" viewBox="(-\d+) (-\d+) (\d+) (\d+)"', text)
    ground = re.search(r'<rect x="(-\d+)" y="(-\d+)" width="(\d+)" height="(\d+)" fill="#ffffff"/>', text)
    titles = re.search(r"^<title>([^<]*)</title>$(?s:.*?)^<text [^>]*>\1</text>$", text, re.M)
    if not box or not ground or not titles or box.groups()[2:] != ground.groups() or box.groups()[:2] != ground.groups()[2:]:
        return None
    found = re.findall(r'<rect x="(\d+)" y="(\d+)" width="(\d+)" height="\d+" fill="([^"]*)"><title>([^<]*)</title></rect>', text)
    keys = re.findall(r'<rect x="(\d+)" y="(\d+)" width="16" height="16" ([^>]*)/>\n<text x="(\d+)" y="(\d+)">([^<]*)</text>', text)
    bottom = int(ground[4]) + int(ground[2])
    for place, (left, top, _, words, line, _) in enumerate(keys):
        if (int(left), int(top)) != (240 * (place % 4), 456 + 24 * (place // 4)) or int(words) != int(left) + 22 or int(line) != int(top) + 12 or int(line) + 4 > bottom:
            return None
    return titles[1], [(int(left), int(top), int(width), fill, title) for left, top, width, fill, title in found], [(key[2], key[5]) for key in keys]


def picture(core):
    """The same as it has to be."""
    return picture_title(core), list(picture_parts(core)), legend(core)


def told(core):
    """What is compared in two images: lines by the kind of what they tell of, its number, and a number of what lies in that."""
    lines = {(0, 0, 0): f"memory {core.size} bytes", (0, 1, 0): f"swap device {core.blocks} blocks"}
    lines.update({(0, 2, 0): f"{core.steps} steps", (0, 3, 0): f"{core.console} console bytes"})
    for number, entry in enumerate(core.segments):
        lines[1, number, 0] = f"segment {number}: {fields(entry)}; {place(entry)}"
    for pid, process in core.processes.items():
        first, *rest = process_lines(pid, process)
        lines[2, pid, 0] = first
        for key, line in zip([1, 2, *(3 + index for index in process[3])], rest):
            lines[2, pid, key] = f"process {pid}: {line}"
    return lines


def difference_lines(core, other):
    """Lines of the first image that the second has otherwise behind `-`, those of the second behind `+`, and which bytes differ."""
    before, after = told(core), told(other)
    rows = [f"- {before[key]}" for key in sorted(before) if after.get(key) != before[key]]
    rows += [f"+ {after[key]}" for key in sorted(after) if before.get(key) != after[key]]
    for number, (one, two) in enumerate(zip(core.segments, other.segments)):
        at = [k for k, (left, right) in enumerate(zip(content(one), content(two))) if left != right]
        if at:
            rows.append(f"  segment {number}: {len(at)} bytes differ, the first at {at[0]:04X}h")
    return rows or ["nothing differs"]
