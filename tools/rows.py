"""Files of runs, a row for each thing, for the tools beside this file.

A row is a mark, a blank and a LINE; an empty one, and one with the mark #, are passed over. What begins with blanks goes on with
the row before it. A LINE is taken as it stands, but for these: {NAME} is the text of that name in the file `texts` beside the
rows, {TEXT x N} is N times TEXT or the text of that name, and {FROM..TO} writes the line once for each of these hexadecimal
numbers, {FROM to TO} for each decimal one, several of a line in step; \\n \\r \\t \\xHH and \\\\ are these octets, and \\c at the
end leaves out the line feed. Words have a blank between them and the same octets, and "" is one without any.
"""

import difflib
import re
import sys

ESCAPES = {b"n": b"\n", b"r": b"\r", b"t": b"\t", b"\\": b"\\", b"c": b""}
RANGE = re.compile(r"\{(?:([0-9A-F]+)\.\.([0-9A-F]+)|(\d+) to (\d+))\}")


def substituted(line, texts):
    """A line with its named texts and its repetitions written out."""
    def written(found):
        text, times = found.groups()
        if times is None and text not in texts:
            raise ValueError(f"no text {text}")
        return texts.get(text, text) * int(times or 1)
    return re.sub(r"\{([^{} ]+)(?: x (\d+))?\}", written, line)


def numbers_in(found):
    """The numbers of a range, as they are written."""
    first, last, least, most = found.groups()
    if first:
        return [f"{one:0{len(first)}X}" for one in range(int(first, 16), int(last, 16) + 1)]
    return list(map(str, range(int(least), int(most) + 1)))


def lines_of(line):
    """The lines that a line with ranges of numbers stands for, or itself."""
    ranges = list(map(numbers_in, RANGE.finditer(line)))
    if not ranges:
        return line
    pieces = RANGE.sub("\0", line).split("\0")
    return "\n".join("".join(map(str.__add__, pieces, (*row, ""))) for row in zip(*ranges, strict=True))


def unescaped(text):
    """The octets of a text."""
    pieces = re.split(rb"\\(x..|.)", text.encode())
    pieces[1::2] = [bytes.fromhex(one[1:].decode()) if one[:1] == b"x" else ESCAPES[one] for one in pieces[1::2]]
    return b"".join(pieces)


def octets_of(line):
    """The octets of a line."""
    return unescaped(line) + (b"" if line.endswith("\\c") else b"\n")


def words_of(line):
    """The words of a line."""
    return [b"" if word == '""' else unescaped(word) for word in filter(None, line.split(" "))]


def texts_of(path):
    """The named texts, each of which may have those before it."""
    texts = {}
    for line in path.read_text().splitlines():
        if line and not line.startswith("#"):
            name, text = line.split(" = ", 1)
            texts[name] = substituted(text, texts).replace("\\n", "\n")
    return texts


def joined_rows(path):
    """The rows of a file, each with its place."""
    rows = []
    for count, row in enumerate(path.read_text().splitlines(), 1):
        if row.startswith(" "):
            place, before = rows.pop()
            rows.append((place, f"{before.rstrip()} {row.strip()}"))
        else:
            rows.append((f"{path.name}:{count}", row))
    return rows


def rows_of(path):
    """The mark and the line of each row, with its place."""
    for place, row in joined_rows(path):
        mark, _, line = row.partition(" ")
        if row and mark != "#":
            yield place, mark, line


def runs_of(path, begun, add):
    """The runs of a file: the row == begins one by its place and its line, and each other row is added to the last."""
    runs = []
    for place, mark, line in rows_of(path):
        try:
            if mark == "==":
                runs.append(begun(place, line))
            else:
                add(runs[-1], mark, line, place)
        except (AttributeError, IndexError, KeyError, TypeError, ValueError) as error:
            sys.exit(f"{place}: {mark} {line}: {error!r}")
    return runs


def placed(octets, place):
    """The lines of octets, each with the place of its row."""
    return [(place, one) for one in octets.splitlines(keepends=True)]


def shown(line):
    """A line for the eye."""
    return line.decode(errors="backslashreplace").rstrip("\n")


def differences(awaited, seen):
    """Where lines differ from those that are awaited."""
    wanted = [line for _, line in awaited]
    if wanted == seen:
        return
    for kind, start, end, first, last in difflib.SequenceMatcher(None, wanted, seen, autojunk=False).get_opcodes():
        if kind != "equal":
            yield from (f"  {place}: awaited is {shown(line)}" for place, line in awaited[start:end])
            yield from (f"  seen is {shown(line)}" for line in seen[first:last])
