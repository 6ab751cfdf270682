#!/usr/bin/env python3
"""Draws pictures from what a program wrote: in text, and lanes and memory as SVG too.

  lanes REPORT     a column for each process, with what it did, in the order of the report; of a trace of os2trace also where it waits
  table CONSOLE    the local table that examples/selectors/table.exe wrote: kinds and sizes
  patches NAME     the bytes of NAME.lst before loading, and those of NAME.console after it
  memory LAYOUT    memory at some moments, side by side; in SVG a selector has one colour in all of them
  pages            whether each picture in docs/guide is what is drawn now
  pages write      writes them anew

A page has a picture between a line <!-- picture: WORDS --> and the end of the block below it.
"""
import glob
import html
import os
import re
import sys

sys.dont_write_bytecode = True
sys.path.insert(0, os.path.join(os.path.dirname(os.path.realpath(__file__)), "lib"))
import command

ROOT = command.ROOT
KINDS = {"FB": "code", "F9": "code, not readable", "F3": "data", "F1": "data, read-only", "E4": "call gate"}


def lines_of(path):
    with open(os.path.join(ROOT, path), encoding="latin-1") as file:
        return file.read().splitlines()


def lines_told(path):
    """The lines of a report. Of a trace, which has them behind `|`, with a line `P waits` where process P begins to wait."""
    lines = lines_of(path)
    if not any(line.startswith("| ") for line in lines):
        return lines
    told, waiting = [], set()
    for line in lines:
        step = re.match(r"(\d+) [0-9A-F]{4}:[0-9A-F]{4} ", line)
        if line.startswith("| "):
            told.append(line[2:])
        elif step and line.endswith(" waits"):
            if step[1] not in waiting:
                told.append(f"{step[1]} waits")
            waiting.add(step[1])
        elif step:
            waiting.discard(step[1])
        elif line.startswith("process "):
            told.append(line)
    return told


def events(report):
    """What each process did, in the order of the report: the process's number and a text; of all at once the number is None."""
    rows, holds = [], {}
    for line in lines_told(report):
        number, _, what = line.partition(" ")
        if not number.isdigit():
            rows.append((None, line))
        elif what.startswith("hold ") and what.endswith(" by load"):
            if number not in holds:
                holds[number] = len(rows)
                rows.append((number, "holds"))
            at = holds[number]
            rows[at] = (number, rows[at][1] + " " + what.split(" ")[1])
        else:
            rows.append((number, what[5:] if what.startswith("call ") else what))
    return rows, sorted({number for number, _ in rows if number}, key=int)


def lanes(report):
    rows, numbers = events(report)
    width = {n: max([len("process " + n)] + [len(text) for number, text in rows if number == n]) for n in numbers}
    ended = set()
    yield "  ".join(("process " + n).ljust(width[n]) for n in numbers).rstrip()
    for number, text in rows:
        if number is None:
            yield text
            continue
        yield "  ".join((text if n == number else "" if n in ended else "|").ljust(width[n]) for n in numbers).rstrip()
        if text.startswith("end "):
            ended.add(number)


def table(console):
    yield "selector  index  kind                bytes"
    for line in lines_of(console):
        words = line.split()
        index = int(words[0], 16) >> 3
        if len(words) < 3:
            yield f"{words[0]}      {index:5}  none"
            continue
        size = int(words[2], 16) + 1
        yield f"{words[0]}      {index:5}  {KINDS[words[1][:2]]:18}  {size:5}  {'#' * size.bit_length()}"


def patches(name):
    after = bytes.fromhex("".join(lines_of(name + ".console")))
    rows, segment = [], 0
    for line in lines_of(name + ".lst"):
        if line.startswith("segment "):
            segment = int(line.split()[1])
        found = re.match(r"([0-9A-F]{4})  ((?:[0-9A-F]{2} )*[0-9A-F]{2})(?:  (.*))?$", line)
        if found and segment == 2:
            rows.append((int(found[1], 16), bytes.fromhex(found[2]), found[3] or ""))
    first = next(at for at, _, text in rows if "@" in text)
    yield "offset  in the file   when loaded   what it is"
    for at, before, text in rows:
        if at >= first:
            text, _, kind = text.partition("@")
            now = after[at - first : at - first + len(before)]
            text = text.strip() + (f" ({kind.split(' ', 1)[1]})" if kind else "")
            yield f"{at:04X}    {before.hex(' ').upper():12}  {now.hex(' ').upper():12}  {text}".rstrip()


def boxes(title, memory, rows):
    """A column of memory: each segment between its base and its end, what is free, and below it what is elsewhere."""
    yield title
    at = 0
    for base, selector, size in sorted(row for row in rows if isinstance(row[0], int)):
        if base > at:
            yield from (f"{at:5} +------------+", "      | free       |")
        yield from (f"{base:5} +------------+", f"      | {selector} {size:5} |")
        at = base + whole(size)
    if memory > at:
        yield from (f"{at:5} +------------+", "      | free       |")
    yield f"{memory:5} +------------+"
    for where, selector, size in (row for row in rows if isinstance(row[0], str)):
        yield f"{selector} {where}"


def moments_of(layout):
    """The moments of a layout: the words of each, its bytes of memory, and its segments, each with its place (an offset, or where it is
    else), its selector and its size."""
    moments = []
    for line in lines_of(layout):
        moment = re.search(r"(after step \d+) in (\d+) bytes$", line)
        segment = re.match(r"([0-9A-F]{4}) (\d+) (?:at (\d+)|(.*))$", line)
        if moment:
            moments.append((moment[1], int(moment[2]), []))
        elif segment and moments:
            moments[-1][2].append((int(segment[3]) if segment[3] else segment[4], segment[1], int(segment[2])))
    return moments


def memory(layout):
    columns = [list(boxes(*moment)) for moment in moments_of(layout)]
    width = max(len(line) for column in columns for line in column)
    for k in range(max(map(len, columns))):
        yield "   ".join((column[k] if k < len(column) else "").ljust(width) for column in columns).rstrip()


# Colours that are told apart, light enough for black text; a ninth holder has the first one again.
COLOURS = ("#8dd3c7", "#fdb462", "#80b1d3", "#fb8072", "#b3de69", "#bebada", "#fccde5", "#ffed6f")
FONT = 'font-family="monospace" font-size="12"'


def svg(width, height, title, parts):
    yield f'<svg xmlns="http://www.w3.org/2000/svg" width="{width}" height="{height}" viewBox="0 0 {width} {height}" role="img">'
    yield f"<title>{html.escape(title)}</title>"
    yield f'<rect width="{width}" height="{height}" fill="white"/>'
    yield f'<text x="10" y="20" {FONT} font-weight="bold">{html.escape(title)}</text>'
    yield from parts
    yield "</svg>"


def label(x, y, text, more=""):
    return f'<text x="{x}" y="{y}" {FONT}{more}>{html.escape(text)}</text>'


def lanes_svg(report):
    """The lanes of a report: a line for each process, from its first row to its end, and a box for each thing that it did."""
    rows, numbers = events(report)
    wide = {n: 8 * max([len("process " + n)] + [len(text) for number, text in rows if number == n]) + 24 for n in numbers}
    left, at = {}, 10
    for n in numbers:
        left[n], at = at, at + wide[n] + 10
    width = max(at, 8 * max([len(text) for number, text in rows if number is None] + [len(report) + 4]) + 20)
    ends = {n: max(k for k, (number, _) in enumerate(rows) if number == n) for n in numbers}
    parts = []
    for k, n in enumerate(numbers):
        parts.append(label(left[n] + 8, 44, "process " + n, ' font-weight="bold"'))
        parts.append(f'<line x1="{left[n] + wide[n] // 2}" y1="50" x2="{left[n] + wide[n] // 2}" y2="{66 + 22 * ends[n]}" stroke="#888"/>')
    for k, (number, text) in enumerate(rows):
        y = 56 + 22 * k
        if number is None:
            parts.append(label(10, y + 14, text, ' font-style="italic"'))
            continue
        colour = COLOURS[numbers.index(number) % len(COLOURS)]
        parts.append(f'<rect x="{left[number]}" y="{y}" width="{wide[number]}" height="19" rx="3" fill="{colour}" stroke="#444"/>')
        parts.append(label(left[number] + 8, y + 14, text))
    yield from svg(width, 70 + 22 * len(rows), f"{os.path.basename(report)}: what each process did", parts)


def memory_svg(layout):
    """Memory at some moments. One colour stays with one selector in all of them, as the legend tells; each box has its selector and its size."""
    moments = moments_of(layout)
    selectors = sorted({selector for _, _, rows in moments for _, selector, _ in rows})
    colour = {selector: COLOURS[k % len(COLOURS)] for k, selector in enumerate(selectors)}
    most = max(size for _, size, _ in moments)
    tall, parts, most_below = 420, [], 0
    for k, (title, size, rows) in enumerate(moments):
        x, top = 10 + 240 * k, 56
        scale = tall / most
        parts.append(label(x, 44, f"{title}: {size} bytes", ' font-weight="bold"'))
        parts.append(f'<rect x="{x}" y="{top}" width="170" height="{size * scale:.1f}" fill="#f4f4f4" stroke="#444"/>')
        told, under = 0, []
        for base, selector, count in sorted(row for row in rows if isinstance(row[0], int)):
            y, high = top + base * scale, max(whole(count) * scale, 2)
            parts.append(f'<rect x="{x}" y="{y:.1f}" width="170" height="{high:.1f}" fill="{colour[selector]}" stroke="#444"/>')
            if high >= 12:
                parts.append(label(x + 6, round(y + high / 2 + 4), f"{selector}  {count} bytes"))
            else:
                under.append((f"at {base}", selector, count))
            if y >= told + 12:
                parts.append(label(x + 174, round(y + 10), str(base), ' fill="#666"'))
                told = y
        under += [row for row in rows if isinstance(row[0], str)]
        most_below = max(most_below, len(under))
        for row, (place, selector, count) in enumerate(under):
            y = top + tall + 20 + 18 * row
            parts.append(f'<rect x="{x}" y="{y - 10}" width="12" height="12" fill="{colour[selector]}" stroke="#444"/>')
            parts.append(label(x + 18, y, f"{selector}  {count} bytes, {place}"))
    below = 56 + tall + 20 + 18 * most_below + 16
    parts.append(label(10, below, "selectors:", ' font-weight="bold"'))
    for k, selector in enumerate(selectors):
        x, y = 100 + 80 * (k % 8), below + 20 * (k // 8)
        parts.append(f'<rect x="{x}" y="{y - 11}" width="14" height="14" fill="{colour[selector]}" stroke="#444"/>')
        parts.append(label(x + 20, y, selector))
    parts.append(label(100 + 80 * (len(selectors) % 8), below + 20 * (len(selectors) // 8), "grey: free", ' fill="#666"'))
    width = max(240 * len(moments), 100 + 80 * min(len(selectors), 8) + 110)
    yield from svg(width, below + 20 * (len(selectors) // 8) + 20, f"{os.path.basename(layout)}: memory at {len(moments)} moments", parts)


def whole(count):
    """A length in whole paragraphs of 16 bytes."""
    return -(-count // 16) * 16


DRAWN = {"lanes": lanes, "table": table, "patches": patches, "memory": memory}
AS_SVG = {"lanes": lanes_svg, "memory": memory_svg}


def pages(is_written):
    failed, count = 0, 0
    for page in sorted(glob.glob(os.path.join(ROOT, "docs", "guide", "*.md"))):
        with open(page, encoding="utf-8") as file:
            text = file.read()

        def drawn(found):
            nonlocal count
            count += 1
            kind, path = found[1].split()
            return f"<!-- picture: {found[1]} -->\n\n" + "".join(f"    {it}".rstrip() + "\n" for it in DRAWN[kind](path)) + "\n"

        now = re.sub(r"<!-- picture: ([^>]*) -->\n\n(?:    .*\n)*\n?", drawn, text)
        if now != text and is_written:
            with open(page, "w", encoding="utf-8") as file:
                file.write(now)
        elif now != text:
            print(f"{os.path.relpath(page, ROOT)}: a picture isn't what is drawn now: tools/picture.py pages write")
            failed = 1
    print(f"pictures: {count} are {'written' if is_written else 'as drawn' if not failed else 'there'}")
    return failed


def main():
    parser = command.parser("tools/picture.py", __doc__)
    parser.add_argument("kind", metavar="KIND", choices=[*DRAWN, "pages"], help=", ".join([*DRAWN, "pages"]))
    parser.add_argument("file", metavar="FILE", nargs="?", help="what is drawn, or `write` after `pages`")
    parser.add_argument("--svg", action="store_true", help="lanes or memory as SVG, on the standard output")
    given = command.given(parser)
    if given.svg and given.kind not in AS_SVG:
        parser.error(f"{given.kind} isn't drawn as SVG")
    if given.kind == "pages":
        if given.file not in (None, "write"):
            parser.error("after `pages` comes `write` or nothing")
        return pages(given.file == "write")
    if not given.file:
        parser.error(f"{given.kind} wants a file")
    try:
        rows = list((AS_SVG if given.svg else DRAWN)[given.kind](os.path.relpath(os.path.abspath(given.file), ROOT)))
    except OSError as error:
        return f"tools/picture.py: {given.file}: {error.strerror}"
    except (ValueError, KeyError, IndexError, StopIteration, RuntimeError) as error:
        return f"tools/picture.py: {given.file}: no {given.kind} can be drawn of it ({error})"
    print("\n".join(rows))
    return 0


if __name__ == "__main__":
    command.end(main)
