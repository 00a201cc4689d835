#!/usr/bin/env python3
"""entries.py FILE: runs the calls of a file of example calls against the proved entries and compares every answer and every lent slice.

FILE is a list of calls {entry, note, args, result | refusal}, as the vectors have them. Run tests/library.sh first.
A refused call must leave each lent slice, and each number that is given through a pointer, as it was; both are lent with rubbish in them so that
this shows. ENTRIES below is the table of the entries: a new one is a row. A call of decompose that names a tolerance is one of decompose_within;
a call of decompose or of restore that names a list (`mill`) is one of decompose_listed or of restore_listed.
"""
import ctypes, json, os, re, sys

root = os.path.dirname(os.path.dirname(os.path.abspath(__file__)))
lib = ctypes.CDLL(os.path.join(root, "target", "libtetrolet.so"))
TYPES = {"i64": ctypes.c_int64, "u64": ctypes.c_uint64, "u32": ctypes.c_uint32, "u16": ctypes.c_uint16, "u8": ctypes.c_uint8, "size": ctypes.c_size_t}
RUBBISH = 0x5A5A


# ---- Lengths of slices that a call does not name


def area(height, width):
    return height * width if height <= 1024 and width <= 1024 else 16


def blocks(height, width, levels):
    if not (0 < height <= 512 and 0 < width <= 512 and levels < 10):
        return 1
    return sum((height >> (r + 1)) * (width >> (r + 1)) for r in range(1, levels + 1))


def frame(e):
    return [e["args"].get(k, 0) for k in ("height", "width", "levels")]


def of_area(e):
    return area(*frame(e)[:2])


def of_blocks(e):
    return blocks(*frame(e))


def sheet_frame(e):
    """The height, the width and the levels that a sheet's second line gives; 4, 4 and 1 where there are none."""
    m = re.match(r"height width levels\n(\d{1,4}) (\d{1,4}) (\d{1,2})\n", e["args"]["text"])
    return [int(n) for n in m.groups()] if m else [4, 4, 1]


def of_sheet_area(e):
    return area(*sheet_frame(e)[:2])


def of_sheet_blocks(e):
    return blocks(*sheet_frame(e))


def of_joined_area(e):
    height, width = e["args"]["left"][:2]
    return 2 * area(height, width)


def of_joined_blocks(e):
    return 2 * blocks(*e["args"]["left"][:3])


def of_window(e):
    return area(e["args"]["win_height"], e["args"]["win_width"])


def of_text(e):
    want = e.get("result", {}).get("tray", "")
    return len(want) if want else 64


# ---- The parameters of an entry


class Number:
    """A number that is passed as it is. With a default, that one where the call does not give it."""

    def __init__(self, name, kind="size", default=None):
        self.name, self.kind, self.default = name, kind, default

    def lend(self, e):
        v = e["args"].get(self.name, self.default)
        self.flat = (TYPES[self.kind](v),)

    def value(self):
        return None


class Slice:
    """A slice. With a length it is one that the entry changes, lent with rubbish where the call does not give it."""

    def __init__(self, name, kind, length=None):
        self.name, self.kind, self.length = name, kind, length

    def lend(self, e):
        v = e["args"].get(self.name)
        if v is None:
            v = [(37 * i + 11) % 97 + 1 for i in range(self.length(e))]
        v = list(v.encode("latin-1")) if isinstance(v, str) else v
        self.count = len(v)
        self.data = (TYPES[self.kind] * max(1, self.count))(*v)
        self.flat = (self.data, ctypes.c_size_t(self.count))
        self.before = self.value()

    def value(self):
        return [self.data[i] for i in range(self.count)] if self.length else None


class Strip:
    """A strip that is only read, [height, width, levels, plane, coverings]."""

    def __init__(self, name):
        self.name = name
        self.parts = [Number("height"), Number("width"), Number("levels"), Slice("plane", "i64"), Slice("covers", "u8")]

    def lend(self, e):
        given = {"args": dict(zip([p.name for p in self.parts], e["args"][self.name]))}
        for p in self.parts:
            p.lend(given)
        self.flat = tuple(x for p in self.parts for x in p.flat)

    def value(self):
        return None


class Text(Slice):
    """A buffer of bytes, which the results give as a text."""

    def value(self):
        return bytes(self.data[i] for i in range(self.count)).decode("latin-1")


class Given:
    """A number that the entry gives through a pointer."""

    def __init__(self, name, kind="size"):
        self.name, self.kind = name, kind

    def lend(self, e):
        self.data = TYPES[self.kind](RUBBISH)
        self.flat = (ctypes.byref(self.data),)
        self.before = self.value()

    def value(self):
        return self.data.value


class Chosen:
    """No parameter: what the results have beside a block, the steps of pieces 0 to 3, read off its samples by the word of the covering. None without a block."""

    flat, before = (), None

    def __init__(self, name, samples, found):
        self.name, self.samples, self.found = name, samples, found

    def lend(self, e):
        self.covering = ctypes.c_uint8(e["args"]["cover"])

    def value(self):
        if self.found.value() != 1:
            return None
        word = (ctypes.c_uint8 * 16)()
        lib.tetrolet_word(self.covering, word, ctypes.c_size_t(16))
        by_piece = dict(zip(word, self.samples.value()))
        return [by_piece.get(piece) for piece in range(4)]


FRAME = [Number("height"), Number("width"), Number("levels")]
PLANE, COVERS = Slice("plane", "i64"), Slice("covers", "u8")
SCRATCH = Slice("scratch", "i64", of_area)
SAMPLES, LIST = Slice("samples", "u16"), Slice("mill", "u8")
WINDOW = [Number("top"), Number("left"), Number("win_height"), Number("win_width")]
DECOMPOSED = [Slice("plane", "i64", of_area), Slice("covers", "u8", of_blocks), SCRATCH]
RESTORED = [Slice("numerators", "i64", of_area), Slice("samples", "u16", of_area), SCRATCH]
BLOCK, FOUND = Slice("samples", "u16", lambda e: 16), Given("found", "u8")

ENTRIES = {
    "pieces": ("tetrolet_word", [Number("cover", "u8"), Slice("word", "u8", lambda e: 16)]),
    "decompose": ("tetrolet_decompose", FRAME + [SAMPLES] + DECOMPOSED),
    "decompose_within": ("tetrolet_decompose_within", FRAME + [Number("tolerance", "u64"), SAMPLES] + DECOMPOSED),
    "decompose_listed": ("tetrolet_decompose_listed", FRAME + [Number("tolerance", "u64", 0), SAMPLES, LIST] + DECOMPOSED),
    "restore": ("tetrolet_restore", FRAME + [PLANE, COVERS] + RESTORED),
    "restore_listed": ("tetrolet_restore_listed", FRAME + [PLANE, COVERS, LIST] + RESTORED),
    "restore_master": ("tetrolet_restore_master", FRAME + [PLANE, COVERS] + RESTORED),
    "keep": ("tetrolet_keep", FRAME + [Slice("plane", "i64", of_area), Number("quota", "u64"), Given("left")]),
    "cut": ("tetrolet_threshold", FRAME + [Slice("plane", "i64", of_area), Number("threshold", "u64"), Given("left")]),
    "join": ("tetrolet_join", [Strip("left"), Strip("right"), Slice("plane", "i64", of_joined_area), Slice("covers", "u8", of_joined_blocks)]),
    "window": ("tetrolet_window", FRAME + [PLANE, COVERS] + WINDOW + [Slice("samples", "u16", of_window)]),
    "smooth": ("tetrolet_smooth", FRAME + [PLANE, COVERS, Number("p", "u64"), Slice("result", "i64", of_area), SCRATCH]),
    "write": ("tetrolet_write", FRAME + [PLANE, COVERS, Text("tray", "u8", of_text), Given("length")]),
    "read": ("tetrolet_read", [Slice("text", "u8"), Slice("plane", "i64", of_sheet_area), Slice("covers", "u8", of_sheet_blocks), Given("height"), Given("width"), Given("levels")]),
    "usage": ("tetrolet_usage", [COVERS, Text("tray", "u8", of_text), Given("length")]),
    "test_load": ("tetrolet_test_image", FRAME[:2] + [Number("start", "u32"), Slice("samples", "u16", of_area)]),
    "show_block": ("tetrolet_show", [Number("cover", "u8"), Slice("steps", "u16"), BLOCK, FOUND, Chosen("steps", BLOCK, FOUND)]),
}


def entry_of(e):
    entry, args = e["entry"], e["args"]
    if entry in ("decompose", "restore") and "mill" in args:
        return entry + "_listed"
    return "decompose_within" if entry == "decompose" and "tolerance" in args else entry


def run(e):
    if entry_of(e) not in ENTRIES:
        return f"no such entry: {e['entry']}"
    name, parameters = ENTRIES[entry_of(e)]
    function = getattr(lib, name)
    function.restype = ctypes.c_uint32
    for p in parameters:
        p.lend(e)
    n = function(*[x for p in parameters for x in p.flat])
    changing = [p for p in parameters if p.value() is not None]
    got = {p.name: p.value() for p in changing}
    if "refusal" in e:
        if n != e["refusal"]:
            return f"answered {n}, not {e['refusal']}"
        changed = [p.name for p in changing if got[p.name] != p.before]
        return f"changed on refusal: {changed}" if changed else None
    if n != 0:
        return f"refused with {n}"
    for k, v in e["result"].items():
        if got.get(k) != v:
            return f"{k} is {got.get(k)}, not {v}"
    return None


def main():
    calls = json.load(open(sys.argv[1]))
    done, bad, missing = {}, 0, set()
    for i, e in enumerate(calls):
        try:
            why = run(e)
        except AttributeError as x:
            missing.add(str(x).split(":")[-1].strip())
            continue
        done[entry_of(e)] = done.get(entry_of(e), 0) + 1
        if why:
            bad += 1
            print(f"call {i} ({entry_of(e)}, {e.get('note', '')}): {why}"[:400])
    for k in sorted(done):
        print(f"{k}: {done[k]} calls")
    for m in sorted(missing):
        print(f"not there: {m}")
    print(f"{sum(done.values()) - bad} agree, {bad} do not")
    sys.exit(1 if bad else 0)


main()
