#!/usr/bin/env python3
"""Makes the sample of the listing program: crates/listing/stdin, a typelib, and crates/listing/stdout, what is printed of it.

The typelib has every kind of line: namespaces, unresolved entries with and without an IID, slots past 10 that are
inherited, parents of a higher index, a chain that meets an unresolved entry, getters and setters, and constants of the
four types at their least and greatest. Both are written from the table below by document 01, and by nothing else.
"""
import os

U8, U32, INT32, IID, VOID = 4, 6, 2, 14, 13
POINTER = 0x80
IN, OUT = 0x80, 0x40
GETTER, SETTER, CONSTRUCTOR, HIDDEN = 0x80, 0x40, 0x10, 0x08


def param(flags, *type_bytes):
    return bytes([flags, *type_bytes])


def method(name, *arguments, flags=0):
    return (flags, name, list(arguments))


def size(flags=IN):
    return param(flags, U32)


# type byte, bytes of the value, signed
KINDS = {"i16": (1, 2, True), "i32": (2, 4, True), "u16": (5, 2, False), "u32": (6, 4, False)}

# IID, namespace, name, and for a resolved entry: parent, methods, constants
ENTRIES = [
    (0, "n", "Ghost", None),
    (0, "", "Ghost", None),
    (1, "", "Leaf", (4, [method("last"), method("Leaf", flags=CONSTRUCTOR)], [])),
    (
        0x0123456789ABCDEF0123456789ABCDEF,
        "org_x",
        "Child",
        (
            5,
            [
                method("size", flags=GETTER),
                method("size", size(), flags=SETTER),
                method("query", param(IN, POINTER | IID), param(OUT, POINTER | 19, 0)),
                method("fill", size(), size(), param(IN, POINTER | 20, 0, 1, INT32)),
                method("text", size(), param(IN, POINTER | 21, 0, 0), flags=HIDDEN),
                method("peer", param(IN, POINTER | 18, 0, 5)),
                method("size"),
            ],
            [("FIRST", "u16", 0), ("SECOND", "u32", 10)],
        ),
    ),
    (
        1 << 127,
        "",
        "Root",
        (
            0,
            [
                method("a", flags=GETTER),
                method("a", param(IN, U8), flags=SETTER),
                method("b_1", size(), size()),
                method("many", *[param(IN, U8)] * 255),
                method("0"),
            ],
            [
                ("LEAST_16", "i16", -32768),
                ("MINUS_TWO", "i16", -2),
                ("GREATEST_16", "i16", 32767),
                ("LEAST_32", "i32", -2147483648),
                ("MINUS_ONE", "i32", -1),
                ("ZERO", "i32", 0),
                ("GREATEST_32", "i32", 2147483647),
                ("ALL_16", "u16", 65535),
                ("HALF_16", "u16", 32768),
                ("ALL_32", "u32", 4294967295),
                ("HALF_32", "u32", 2147483648),
            ],
        ),
    ),
    (0xA0000000000000000000000000000000, "org_x", "Absent", None),
    ((1 << 128) - 2, "org_x", "Below", (6, [method("seen", flags=GETTER), method("seen", size(), flags=SETTER)], [])),
    ((1 << 128) - 1, "", "Deeper", (7, [method("alone", size())], [("K", "i16", -1)])),
]

MAGIC = bytes.fromhex("5850434f4d0a547970654c69620d0a1a")
ANNOTATION = bytes([0x81]) + b"".join(len(t).to_bytes(2, "big") + t for t in (b"make_listing", b"listed"))


def typelib():
    directory = 32 + len(ANNOTATION) + -len(ANNOTATION) % 4
    start = directory + 28 * len(ENTRIES) + 3
    pool = bytearray(b"?")  # a byte that nothing points to
    places = {}

    def name(text):
        if text not in places:
            places[text] = len(pool) + 1
            pool.extend(text.encode() + b"\0")
        return places[text].to_bytes(4, "big")

    def method_bytes(m):
        flags, text, arguments = m
        return bytes([flags]) + name(text) + bytes([len(arguments)]) + b"".join(arguments) + param(0, VOID)

    def constant_bytes(k):
        text, kind, value = k
        code, width, signed = KINDS[kind]
        return name(text) + bytes([code]) + value.to_bytes(width, "big", signed=signed)

    rows = b""
    for iid, space, text, own in ENTRIES:
        row = iid.to_bytes(16, "big") + name(text) + (name(space) if space else bytes(4))
        if own is None:
            rows += row + bytes(4)
            continue
        parent, methods, constants = own
        record = parent.to_bytes(2, "big") + len(methods).to_bytes(2, "big") + b"".join(map(method_bytes, methods))
        record += len(constants).to_bytes(2, "big") + b"".join(map(constant_bytes, constants)) + b"\x80"
        rows += row + (len(pool) + 1).to_bytes(4, "big")
        pool.extend(record)
    header = MAGIC + b"\x01\x01" + len(ENTRIES).to_bytes(2, "big") + (start + len(pool)).to_bytes(4, "big")
    header += directory.to_bytes(4, "big") + start.to_bytes(4, "big")
    return (header + ANNOTATION).ljust(directory, b"\0") + rows + bytes(3) + bytes(pool)


def inherited(index):
    """The methods of an entry and its parents; none where one is unresolved."""
    if index == 0:
        return 0
    own = ENTRIES[index - 1][3]
    above = None if own is None else inherited(own[0])
    return None if above is None else above + len(own[1])


def shown(slots):
    return "?" if slots is None else slots


def listing():
    lines = [f"accepted {len(ENTRIES)}"]
    for index, (iid, space, text, own) in enumerate(ENTRIES, 1):
        end = "unresolved" if own is None else f"parent {own[0]}"
        lines.append(f"I {index} {iid:032x} {space or '-'} {text} {end}")
        if own is None:
            continue
        base, total = inherited(own[0]), inherited(index)
        for position, (_, word, arguments) in enumerate(own[1]):
            slot = None if base is None else base + position
            lines.append(f"M {shown(slot)} {word} {len(arguments)} {shown(total)}")
        for word, _, value in own[2]:
            lines.append(f"C {word} {value}")
    return "".join(line + "\n" for line in lines)


if __name__ == "__main__":
    folder = os.path.join(os.path.dirname(os.path.abspath(__file__)), "..", "crates", "listing")
    with open(os.path.join(folder, "stdin"), "wb") as f:
        f.write(typelib())
    with open(os.path.join(folder, "stdout"), "w") as f:
        f.write(listing())
