"""Messages of SNMP version 2c by their words, for the tools beside this file.

    KIND COMMUNITY [id ID] [NUMBER NUMBER] [[N x ] NAME [TYPE [VALUE]], ..]

KIND is get, next, set, bulk, response, trap1, inform, trap or report. The numbers are those behind the request-id, 0 where
they are left out; the first may be an error-status by its name. A NAME may begin with the name of an object in
docs/OBJECTS.md. TYPE and VALUE are as manager prints them (docs/MANAGER.md); a name alone is one of NULL. A binding with [FROM to TO]
stands for one of each of these numbers, in their order.
"""

import itertools
import pathlib
import re

# Below which docs/OBJECTS.md has its names, by how those begin.
ROOTS = {"dot1d": "1.3.6.1.2.1.17", "vacm": "1.3.6.1.6.3.16"}

KINDS = {"get": 0xA0, "next": 0xA1, "response": 0xA2, "set": 0xA3, "trap1": 0xA4, "bulk": 0xA5, "inform": 0xA6, "trap": 0xA7,
         "report": 0xA8}
STATUSES = ["noError", "tooBig", "noSuchName", "badValue", "readOnly", "genErr", "noAccess", "wrongType", "wrongLength",
            "wrongEncoding", "wrongValue", "noCreation", "inconsistentValue", "resourceUnavailable", "commitFailed", "undoFailed",
            "authorizationError", "notWritable", "inconsistentName"]
INTEGER, OCTET_STRING, OBJECT_IDENTIFIER, SEQUENCE, IP_ADDRESS = 0x02, 0x04, 0x06, 0x30, 0x40
NUMBERS = {"INTEGER": INTEGER, "COUNTER32": 0x41, "GAUGE32": 0x42, "TIMETICKS": 0x43, "COUNTER64": 0x46}
OCTETS = {"OCTETS": OCTET_STRING, "OPAQUE": 0x44}
EMPTY = {"NULL": 0x05, "noSuchObject": 0x80, "noSuchInstance": 0x81, "endOfMibView": 0x82}


def object_names():
    """The objects by their names: their numbers in dotted text."""
    text = (pathlib.Path(__file__).resolve().parent.parent / "docs" / "OBJECTS.md").read_text()
    rows = re.findall(r"^\| ((dot1d|vacm)\w+) \| ([\d.]+) \|", text, re.MULTILINE)
    return {name: f"{ROOTS[root]}.{numbers}" for name, root, numbers in rows}


OBJECTS = object_names()


def tagged(tag, content):
    """A tag, the shortest length and a content (X.690, 8.1)."""
    length = len(content)
    if length < 128:
        return bytes([tag, length]) + content
    octets = length.to_bytes((length.bit_length() + 7) // 8, "big")
    return bytes([tag, 0x80 | len(octets)]) + octets + content


def contents(octets):
    """The tags and contents of what stands in octets, one behind another."""
    while octets:
        tag, length, *_ = octets
        start = 2
        if length >= 128:
            start += length - 128
            length = int.from_bytes(octets[2:start], "big")
        yield tag, octets[start:start + length]
        octets = octets[start + length:]


def number(tag, value):
    """An integer in its shortest form (X.690, 8.3)."""
    magnitude = value if value >= 0 else ~value
    return tagged(tag, value.to_bytes(magnitude.bit_length() // 8 + 1, "big", signed=True))


def base_128(value):
    """A number of an OBJECT IDENTIFIER: seven bits an octet, each but the last with the bit that more follow."""
    digits = [value & 0x7F]
    while value := value >> 7:
        digits.insert(0, 0x80 | value & 0x7F)
    return bytes(digits)


def dotted(octets):
    """The dotted text of the content of an OBJECT IDENTIFIER."""
    numbers, last = [], 0
    for octet in octets:
        last = last << 7 | octet & 0x7F
        if octet < 0x80:
            numbers, last = numbers + [last], 0
    root = min(numbers[0] // 40, 2)
    return ".".join(map(str, [root, numbers[0] - 40 * root, *numbers[1:]]))


def numbers_of(text):
    """The numbers of a name, which may begin with that of an object."""
    first, _, rest = text.partition(".")
    dotted = f"{OBJECTS.get(first, first)}.{rest}".rstrip(".")
    return [int(one) for one in dotted.split(".")]


def identifier(numbers):
    """An OBJECT IDENTIFIER, whose first two numbers stand as one (X.690, 8.19)."""
    one, two, *more = numbers
    return tagged(OBJECT_IDENTIFIER, b"".join(map(base_128, [40 * one + two, *more])))


def value_of(kind="NULL", content=""):
    """A value by its type and what stands behind that."""
    if kind in EMPTY:
        return tagged(EMPTY[kind], b"")
    if kind in NUMBERS:
        return number(NUMBERS[kind], int(content))
    if kind in OCTETS:
        return tagged(OCTETS[kind], bytes.fromhex(content))
    if kind == "IPADDRESS":
        return tagged(IP_ADDRESS, bytes(map(int, content.split("."))))
    if kind == "OID":
        return identifier(numbers_of(content))
    raise ValueError(f"no type {kind}")


def spread(binding):
    """The bindings that one with a range stands for, or itself."""
    found = re.search(r"\[(\d+) to (\d+)\]", binding)
    if not found:
        return [binding]
    return [f"{binding[:found.start()]}{number}{binding[found.end():]}" for number in range(int(found[1]), int(found[2]) + 1)]


def bindings_of(text):
    """Bindings, one behind another."""
    octets = b""
    for binding in itertools.chain.from_iterable(map(spread, filter(None, text.split(", ")))):
        times, name, value = re.fullmatch(r"(?:(\d+) x )?(\S+) ?(.*)", binding).groups()
        octets += tagged(SEQUENCE, identifier(numbers_of(name)) + value_of(*value.split())) * int(times or 1)
    return octets


def message_of(line):
    """The octets of a message (RFC 1901, section 3; RFC 3416, section 3)."""
    form = r"(\w+) (\S+)(?: id (-?\d+))?(?: ([a-zA-Z]+|-?\d+) (-?\d+)(?= |$))?(?: (.*))?"
    kind, community, request, first, second, bindings = re.fullmatch(form, line).groups()
    first = STATUSES.index(first) if first in STATUSES else int(first or 0)
    pdu = b"".join(number(INTEGER, int(one or 0)) for one in (request or 1, first, second))
    pdu += tagged(SEQUENCE, bindings_of(bindings or ""))
    return tagged(SEQUENCE, number(INTEGER, 1) + tagged(OCTET_STRING, community.encode()) + tagged(KINDS[kind], pdu))


def response_in(message):
    """The error-status of a message, and its bindings: names by their octets, and tags of values."""
    ((_, content),) = contents(message)
    *_, (_, pdu) = contents(content)
    _, (_, status), _, (_, bindings) = contents(pdu)
    pairs = [list(contents(binding)) for _, binding in contents(bindings)]
    return STATUSES[int.from_bytes(status, "big")], [(name, tag) for (_, name), (tag, _) in pairs]
