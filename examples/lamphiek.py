"""Lamphiek from Python: the fourteen calls, and a reading through the three hosts in one process, as one_process.c.

    lamphiek.py E|S READING [LIBRARY]

LIBRARY, or the environment variable LAMPHIEK_SO, is the path of liblamphiek.so (otherwise: beside this file), made by
    cc -shared -o liblamphiek.so -Wl,--whole-archive liblamphiek.a -Wl,--no-whole-archive
"""
import ctypes
import os
import pathlib
import re
import sys
from ctypes import POINTER, c_int64, c_size_t, c_uint8, c_uint32

RANGE = 11  # the number of a reading that is out of range
CURVE, EXACT, ONE_BIT = 10, 0, 1
HOUSE_WORDS, REGISTERS, LANE = 16, 16, 24
QUARTERS, DAY_WORDS = 96, 192
WEEKDAY_WORDS, CALENDAR_WORDS = 26, 182  # of opening hours, as lamphiek.h lays them out


class DealerShare(ctypes.Structure):
    _fields_ = [("l1", c_uint32), ("l2", c_uint32)]


class WorkerShare(ctypes.Structure):
    _fields_ = [("m", c_uint32), ("l", c_uint32)]


class Shares(ctypes.Structure):
    _fields_ = [("host0", DealerShare), ("host1", WorkerShare), ("host2", WorkerShare)]


class Counts(ctypes.Structure):
    _fields_ = [("deals", c_uint32), ("words", c_uint32), ("a", c_uint32), ("b", c_uint32)]


class Masks(ctypes.Structure):
    _fields_ = [("l1", c_uint32 * REGISTERS), ("l2", c_uint32 * REGISTERS)]


class State(ctypes.Structure):
    _fields_ = [("m", c_uint32 * LANE), ("mask", c_uint32 * LANE), ("order", c_uint32), ("turn", c_uint32),
                ("used_a", c_uint32), ("used_b", c_uint32), ("used_deals", c_uint32)]


class Quarters(ctypes.Structure):
    _fields_ = [("bits", c_uint32 * 3)]


class Answer(ctypes.Structure):
    _fields_ = [("number", c_uint32), ("index", c_uint32), ("count", c_uint32), ("word", c_uint32)]


class Refused(Exception):
    """A call gave a number that is not 0: args are the number and the order's index."""


def load(path):
    """The library with its fourteen calls declared as in lamphiek.h. A list is a pointer and its count of words, a text
    one and its count of bytes."""
    words = [POINTER(c_uint32), c_size_t]
    job = words + words  # the job and its table
    hours = words + [c_uint32]  # the calendar and the weekday
    day = words + words + hours  # the table, the host's shares, the hours
    calls = {
        "split": (c_uint32, [c_int64, c_uint32, c_uint32, POINTER(Shares)]),
        "open": (c_uint32, [POINTER(Shares), POINTER(c_int64)]),
        "check": (Answer, job + [POINTER(Counts)]),
        "unused_a": (c_size_t, job + words + [POINTER(c_uint32)]),
        "unused_b": (c_size_t, job + words + [POINTER(c_uint32)]),
        "house": (None, [POINTER(c_uint32)]),
        "load": (Answer, [POINTER(c_uint8), c_size_t, POINTER(c_uint32)]),
        "prepare": (Answer, [POINTER(Masks)] + job + words + words + words),
        "start": (Answer, [POINTER(State), c_uint32] + job + words + words),
        "hear": (Answer, [POINTER(State), c_uint32] + job + words + words + [c_uint32]),
        "day_quarters": (Answer, hours + [POINTER(Quarters)]),
        "day_prepare": (Answer, [POINTER(Masks)] + day + words + words + words),
        "day_start": (Answer, [POINTER(State), c_uint32] + day + words + words),
        "day_hear": (Answer, [POINTER(State), c_uint32] + day + words + words + [c_uint32]),
    }
    library = ctypes.CDLL(os.path.abspath(path))
    for name, (result, arguments) in calls.items():
        call = getattr(library, "lamphiek_" + name)
        call.restype, call.argtypes = result, arguments
    return library


def lent(*lists):
    """Each list as the pointer and the count that a call takes."""
    return [part for words in lists for part in (words, len(words))]


def completed(answer):
    """The answer of a call, or the bare number of splitting and opening, if it is not a refusal."""
    number, index = (answer, 0) if isinstance(answer, int) else (answer.number, answer.index)
    if number:
        raise Refused(number, index)
    return answer


def sample_list(factor, count):
    """Masks that anybody can work out, for trials alone: word j is factor * j, and the job's begin at j = 2."""
    return (c_uint32 * count)(*(factor * j % 2**32 for j in range(2, 2 + count)))


def curve(library, mode, reading, factor_a=2654435769, factor_b=2246822519):
    """Mode, reading, value, deals and words spoken, of one curve order on the house table."""
    if not -2**63 <= reading < 2**63:
        raise Refused(RANGE, 0)  # ctypes would cut it to 64 bits
    table, shares, counts, value = (c_uint32 * HOUSE_WORDS)(), Shares(), Counts(), c_int64()
    library.lamphiek_house(table)
    completed(library.lamphiek_split(reading, factor_a, factor_b, shares))
    job = lent((c_uint32 * 4)(CURVE, 0, 0, ONE_BIT if mode == "S" else EXACT), table)
    completed(library.lamphiek_check(*job, counts))
    a, b = sample_list(factor_a, counts.a), sample_list(factor_b, counts.b)
    deals = (c_uint32 * counts.deals)()

    masks, one, two = Masks(), State(), State()
    masks.l1[0], masks.l2[0] = shares.host0.l1, shares.host0.l2
    one.m[0], one.mask[0] = shares.host1.m, shares.host1.l
    two.m[0], two.mask[0] = shares.host2.m, shares.host2.l
    prepared = completed(library.lamphiek_prepare(masks, *job, *lent(a, b, deals)))
    lent1, lent2 = job + lent(a) + [None, 0], job + lent(b, deals)
    from1 = completed(library.lamphiek_start(one, 1, *lent1))
    from2 = completed(library.lamphiek_start(two, 2, *lent2))
    while one.order < 1:
        word1, word2 = from1.word, from2.word
        from1 = completed(library.lamphiek_hear(one, 1, *lent1, word2))
        from2 = completed(library.lamphiek_hear(two, 2, *lent2, word1))

    result = Shares((masks.l1[0], masks.l2[0]), (one.m[0], one.mask[0]), (two.m[0], two.mask[0]))
    completed(library.lamphiek_open(result, value))
    spoken = from1.count + from2.count
    used = {(s.used_a, s.used_b, s.used_deals) for s in (one, two)}
    if (prepared.count, spoken) != (counts.deals, counts.words) or used != {(counts.a, counts.b, counts.deals)}:
        raise RuntimeError("the counts disagree")
    return mode, reading, value.value, prepared.count, spoken


def main():
    if len(sys.argv) not in (3, 4) or sys.argv[1] not in ("E", "S") or not re.fullmatch("-?[0-9]{1,99}", sys.argv[2]):
        print("usage: lamphiek.py E|S READING [LIBRARY]", file=sys.stderr)
        sys.exit(2)
    beside = pathlib.Path(__file__).resolve().with_name("liblamphiek.so")
    library = load(sys.argv[3] if len(sys.argv) == 4 else os.environ.get("LAMPHIEK_SO", beside))
    try:
        print(*curve(library, sys.argv[1], int(sys.argv[2])))
    except Refused as refusal:
        print("refused", refusal.args[0])
        sys.exit(0 if refusal.args[0] == RANGE else 3)  # out of range is an answer like others


if __name__ == "__main__":
    main()
