"""Routes the codes that it is given by the plan of document 01, those that are too short part by part, and says of every other why not.
It ends with 1 if a code was refused.

ctypes needs a shared library, which the archive can be made into, as its code is position independent:

    cc -shared -Wl,--whole-archive target/staticlib/libdesk_c.a -Wl,--no-whole-archive -o libdesk.so
    python3 examples/python/route.py ./libdesk.so 1122 11 13
"""

import ctypes
import sys

PLAN = ["P\tA\t2\t1", "M\t111\t11", "M\t112\t121", "M\t12\t122", "E"]

# The reasons of include/refusals.h, by their numbers.
REASONS = [
    "done",
    "not a record",
    "no plan is open, or one is",
    "n or r is out of range",
    "a word or code is empty, too long or has a wrong digit",
    "a plan has at most 128 pairs",
    "one word begins another",
    "a belt is not covered",
    "no such slot",
    "the slot is empty",
    "the shapes differ",
    "the result is too large for a plan",
    "the exponent is out of range",
    "the code is too short for the plan",
    "the buffer is too short",
    "not a plan or desk",
    "the count of changes is at its limit",
    "the seed is out of range",
    "no such station",
    "station 0 alone gives rights, only to others, and asks for the pairs held",
    "the station has no such right on the slot",
]

LONGEST_REPLY = 5127  # DESK_LONGEST_REPLY of include/desk.h


class Block(ctypes.Structure):
    """struct desk_block"""

    _fields_ = [("arity", ctypes.c_uint8), ("roots", ctypes.c_uint8), ("pairs", ctypes.c_size_t)]


class Control(ctypes.Structure):
    """struct desk_control"""

    _fields_ = [
        ("station", ctypes.c_uint32),
        ("changes", ctypes.c_uint32 * 8),
        ("rights", ctypes.c_uint16 * 7),
        ("pairs", ctypes.c_uint16),
    ]


class Desk(ctypes.Structure):
    """struct desk"""

    _fields_ = [
        ("blocks", Block * 9),
        ("opened", ctypes.c_uint8),
        ("control", Control),
        ("columns", ctypes.c_uint64 * 2304),
    ]


class Written(ctypes.Structure):
    """struct desk_written"""

    _fields_ = [("number", ctypes.c_uint8), ("column", ctypes.c_uint8), ("length", ctypes.c_size_t)]


class Refused(Exception):
    """A refusal, by its number."""

    def __init__(self, number):
        reason = REASONS[number] if number < len(REASONS) else "no such refusal"
        super().__init__(f"refused with {number}, {reason}")


def load(path):
    """The shared library, with the types of the calls that are used here."""
    library = ctypes.CDLL(path)
    library.desk_size.restype = ctypes.c_size_t
    library.desk_fresh.restype = Desk
    library.desk_line.restype = Written
    library.desk_line.argtypes = [
        ctypes.POINTER(Desk),
        ctypes.c_char_p,
        ctypes.c_size_t,
        ctypes.c_char_p,
        ctypes.c_size_t,
    ]
    if library.desk_size() != ctypes.sizeof(Desk):
        raise SystemExit("the library has another struct desk")
    return library


def say(library, desk, line):
    """The reply to a line."""
    sent = line.encode()
    out = ctypes.create_string_buffer(LONGEST_REPLY)
    written = library.desk_line(ctypes.byref(desk), sent, len(sent), out, LONGEST_REPLY)
    if written.number:
        raise Refused(written.number)
    return out.raw[: written.length].decode()


def route(library, desk, code):
    """Prints the image of a code and which pair of the plan sent it there, or so for its parts if it is too short."""
    *parts, last = [line.split("\t") for line in say(library, desk, f"W\tA\t{code}").splitlines()]
    if not parts:
        _, image, place = last
        print(f"{code} -> {image}, pair {place}")
        return
    print(f"{code}, part by part:")
    for _, source, target, place in parts:
        print(f"  {source} -> {target}, pair {place}")


def main(path, codes):
    library = load(path)
    desk = library.desk_fresh()
    for line in PLAN:
        try:
            say(library, desk, line)
        except Refused as refusal:
            raise SystemExit(f"the plan is {refusal}") from refusal
    status = 0
    for code in codes:
        try:
            route(library, desk, code)
        except Refused as refusal:
            print(f"{code}: {refusal}")
            status = 1
    return status


if __name__ == "__main__":
    if len(sys.argv) < 2:
        raise SystemExit("usage: route.py LIBRARY CODE..")
    sys.exit(main(sys.argv[1], sys.argv[2:]))
