"""The library's functions as a program in C calls them: with buffers of any size, full of noise."""

import ctypes
import mmap

from hraunlik import layout, library

NUMBER, BYTE = ctypes.c_uint32, ctypes.c_uint8
NOISE = 0xA5

#: What a buffer holds, and its fixed size; an output has none.
BUFFERS = {
    "output": (BYTE, 0),
    "tables": (NUMBER, layout.TABLE_SHEET),
    "seen": (BYTE, layout.SEEN_SET),
    "sheet": (NUMBER, layout.SENTENCE_SHEET),
    "edges": (NUMBER, layout.EDGE_LIST),
}

#: The buffers that a function is lent, and how many numbers it answers besides the refusal.
FUNCTIONS = {
    "survey": (("tables", "seen"), 3),
    "open": (("tables", "seen", "sheet", "edges"), 0),
    "write": (("output", "tables", "seen", "sheet", "edges"), 2),
    "explain": (("tables", "seen"), 3),
}


def called(path, call):
    """The answer to a call of the gallery (its README.md), and the names of the buffers that changed."""
    function, *words = call.split()
    sizes = dict(word.split("=") for word in words if "=" in word)
    plain = [word for word in words if "=" not in word]
    names, told = FUNCTIONS[function]
    assert set(sizes) <= set(names), call
    lent = {name: noise(name, sizes.get(name)) for name in names}
    slices = [part for buffer in lent.values() for part in (buffer, ctypes.c_size_t(len(buffer)))]
    numbers = [NUMBER(NOISE) for _ in range(told)]
    with path.open("rb") as file:
        data = mmap.mmap(file.fileno(), 0, access=mmap.ACCESS_COPY)
    first = ctypes.c_char.from_buffer(data)
    whole = (ctypes.byref(first), ctypes.c_size_t(len(data)))
    if function == "explain":
        table, tag = plain
        asked = [*whole, NUMBER(int(table)), tag.encode(), ctypes.c_size_t(len(tag))]
    else:
        asked = [NUMBER(int(word)) for word in plain]
    answer = getattr(library.load(), f"hraunlik_{function}")(*whole, *asked, *slices, *map(ctypes.byref, numbers))
    changed = {name for name, buffer in lent.items() if any(byte != NOISE for byte in bytes(buffer))}
    return (answer, *(number.value for number in numbers)), changed


def noise(name, size):
    kind, fixed = BUFFERS[name]
    buffer = (kind * (fixed if size is None else int(size)))()
    ctypes.memset(buffer, NOISE, ctypes.sizeof(buffer))
    return buffer
