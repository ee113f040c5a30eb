"""Controlled selection over the proved library: tables, their roundings, corrections, plans, the reasons of their weights, draws, campaigns and variances.

    stored = lufodimi.plan(2, 2, 10, [3, 4, 5, 6])      # rows, columns, denominator, cells in row order; bytes to keep
    campaign = lufodimi.Campaign(lufodimi.Plan(stored))
    while campaign.rounds < 1:                          # a round takes every number once, and the next one begins by itself
        counts = campaign.draw_random()                 # how many cartons of each cell to open
    assert campaign.tally == campaign.plan.cells

The shared object is the repository's target/lib/liblufodimi.so, which `scripts/library` makes; LUFODIMI_LIBRARY names it if it stands elsewhere.

What the library turns back is a Refusal; where several apply it is the first, in the order in which a call lists them. An integer beyond 32 bits is an
OverflowError, and bytes that are no stored record are a ValueError. None of them changes anything. Counts, cells, sums and numbers come as lists of integers.
"""
from __future__ import annotations

import ctypes
import operator
import os
import pathlib
import secrets
import struct
from ctypes import POINTER, c_char_p, c_int16, c_int32, c_int64, c_size_t, c_uint8, c_uint16, c_uint32, c_uint64
from typing import Iterable, Iterator, NamedTuple

LONGEST_PLAN, SHORTEST_PLAN, MOST_CELLS, MOST_ROUNDS, LAST = 50_912, 30, 144, 1_000, 255
# A stored record: LUFR, the form, the rounds, how many numbers are taken, how many bytes of bits and sums of the tally follow. Form 1 has no rounds, but zero.
_HEAD, _SUMS = struct.Struct("<4sHHIII"), {1: "I", 2: "Q"}
# What the library's numbers for an entry's kind and for how it is rounded stand for.
_KINDS, _ROUNDED = {1: "cell", 2: "row total", 3: "column total", 4: "grand total"}, {0: "all whole", 1: "down", 2: "up"}
SENTENCES = {
    1: "The table has not from 1 to 12 rows and from 1 to 12 columns.",
    2: "The denominator is not from 1 to 65,535.",
    3: "The cells are not as many as rows times columns.",
    4: "A cell is not from 0 to 1000 times the denominator, or a correction not from -1000 to 1000 times it.",
    5: "The bytes are not laid out as a stored plan.",
    6: "The stored plan does not meet the conditions of opening.",
    7: "A buffer is shorter than its result or record.",
    8: "The draw number is not below the denominator.",
    9: "The record does not fit the plan.",
    10: "The number is taken.",
    11: "The least common multiple of the two denominators is above 65,535.",
    12: "A pooled cell is above 1000 times the multiple.",
    13: "The 1,000 rounds of the campaign are done.",
    14: "The plan has no array of that number.",
    15: "The table has more than 4 rows or more than 4 columns, too many to be walked through.",
    16: "The array is no controlled rounding of the table, or has another length.",
}


class Refusal(Exception):
    """Why a call turned its input back: its `number`, from 1 to 16 (7 cannot occur here), and as text its sentence."""

    def __init__(self, number: int):
        super().__init__(SENTENCES[number])
        self.number = number

    def __repr__(self) -> str:
        return f"Refusal {self.number}: {self}"


class _Record(ctypes.Structure):
    """The part of a campaign record that is no buffer."""

    _fields_ = [("taken", c_uint32), ("rounds", c_uint16)]


_path = os.environ.get("LUFODIMI_LIBRARY") or str(pathlib.Path(__file__).resolve().parents[1] / "target/lib/liblufodimi.so")
try:
    # The calls of a PyDLL keep Python's own lock, so that no other thread writes to a record while it is lent.
    _library = ctypes.PyDLL(_path)
except OSError as error:
    raise ImportError(f"lufodimi's shared object cannot be loaded ({error}); scripts/library makes it, and LUFODIMI_LIBRARY names it if it stands elsewhere") from None
_words, _counts, _plan = [POINTER(c_uint32), c_size_t], [POINTER(c_uint16), c_size_t], [c_char_p, c_size_t]
_table, _record = [c_uint32] * 3 + _words, [POINTER(_Record), POINTER(c_uint8), c_size_t, POINTER(c_uint64), c_size_t]
_library.lufodimi_round.argtypes = _table + _counts
_library.lufodimi_round_signed.argtypes = [c_uint32] * 3 + [POINTER(c_int32), c_size_t, POINTER(c_int16), c_size_t]
_library.lufodimi_walk_first.argtypes = _table + _counts
_library.lufodimi_walk_next.argtypes = _table + _counts * 2
_library.lufodimi_pool.argtypes = _table + [c_uint32] + _words * 3
_library.lufodimi_plan.argtypes = _table + _plan
_library.lufodimi_reason.argtypes = _table + [c_uint32] + _words
_library.lufodimi_sizes.argtypes = _plan + _words
_library.lufodimi_cells.argtypes = _plan + _words
_library.lufodimi_array.argtypes = _plan + [c_uint32] + _words + _counts
_library.lufodimi_draw.argtypes = _plan + [c_uint32] + _counts
_library.lufodimi_variances.argtypes = _plan + [POINTER(c_int64), c_size_t]
_library.lufodimi_start.argtypes = _plan + _record
_library.lufodimi_campaign_draw.argtypes = _plan + [c_uint32] + _record + _counts


def _call(name: str, *lent) -> int:
    answer = getattr(_library, "lufodimi_" + name)(*lent)
    if 0 < answer < SHORTEST_PLAN:
        raise Refusal(answer)
    return answer


def _word(value: int, least: int = 0, most: int = 2**32 - 1) -> int:
    """The value, if it is from the least to the most; ctypes would cut it off and say nothing."""
    if not least <= operator.index(value) <= most:
        raise OverflowError(f"{value} is not from {least:,} to {most:,}")
    return operator.index(value)


def _lent_table(rows: int, columns: int, denominator: int, cells: Iterable[int], signed: bool = False) -> tuple:
    """A table as the library takes it. Where its cells have no sign, a negative one goes over as its bits, which the library refuses (4)."""
    held, most = (c_int32, 2**31 - 1) if signed else (c_uint32, 2**32 - 1)
    words = [_word(cell, -(2**31), most) for cell in cells]
    return _word(rows), _word(columns), _word(denominator), (held * len(words))(*words), len(words)


def round_table(rows: int, columns: int, denominator: int, cells: Iterable[int]) -> list[int]:
    """The first controlled rounding of a table. Refusals 1, 2, 3, 4."""
    counts = (c_uint16 * MOST_CELLS)()
    _call("round", *_lent_table(rows, columns, denominator, cells), counts, MOST_CELLS)
    return counts[: rows * columns]


def round_corrections(rows: int, columns: int, denominator: int, cells: Iterable[int]) -> list[int]:
    """The first controlled rounding of a correction sheet, whose cells, and so the counts, may be negative: every cell and total is rounded down or up, down
    being towards minus infinity, and a whole one stays. Where no cell is negative it is that of `round_table`. Refusals 1, 2, 3, 4."""
    counts = (c_int16 * MOST_CELLS)()
    _call("round_signed", *_lent_table(rows, columns, denominator, cells, signed=True), counts, MOST_CELLS)
    return counts[: rows * columns]


def roundings(rows: int, columns: int, denominator: int, cells: Iterable[int], after: Iterable[int] | None = None) -> Iterator[list[int]]:
    """All controlled roundings of a table of up to four by four, each exactly once, or those after a given one. They come one by one, the one with the smaller
    count at the first cell, in row order, where two differ before the other; so the first is that of `round_table`. Refusals 1, 15, 2, 3, 4, and 16 where
    `after` is no controlled rounding of the table or has another length; they are raised by the call, before anything is asked of its generator."""
    table = _lent_table(rows, columns, denominator, cells)
    counts = (c_uint16 * MOST_CELLS)()
    if after is None:
        answer = _call("walk_first", *table, counts, MOST_CELLS)
    else:
        # What 16 bits cannot hold goes over as a count that no controlled rounding has, which the library refuses (16).
        array = [count if 0 <= count < 2**16 else 2**16 - 1 for count in map(operator.index, after)]
        answer = _call("walk_next", *table, (c_uint16 * len(array))(*array), len(array), counts, MOST_CELLS)
    return _walk(table, None if answer == LAST else counts[: rows * columns])


def _walk(table: tuple, array: list[int] | None) -> Iterator[list[int]]:
    """The array and those after it, or nothing."""
    counts = (c_uint16 * MOST_CELLS)()
    while array is not None:
        size = len(array)
        yield list(array)
        answer = _call("walk_next", *table, (c_uint16 * size)(*array), size, counts, MOST_CELLS)
        array = None if answer == LAST else counts[:size]


def pool(
    rows: int, columns: int, denominator: int, cells: Iterable[int], other_denominator: int, other_cells: Iterable[int]
) -> tuple[int, list[int]]:
    """Two tables of the same rows and columns as one: the least common multiple of their denominators, and cells that are exactly the sums of the two
    expected counts, to be passed on as in `plan(rows, columns, *pool(...))`. Refusals 1, 2, 3, 4, 11, 12; 2, 3 and 4 if they apply to either table."""
    multiple, pooled = (c_uint32 * 1)(), (c_uint32 * MOST_CELLS)()
    first, second = _lent_table(rows, columns, denominator, cells), _lent_table(rows, columns, other_denominator, other_cells)
    _call("pool", *first, *second[2:], multiple, 1, pooled, MOST_CELLS)
    return multiple[0], pooled[: rows * columns]


def plan(rows: int, columns: int, denominator: int, cells: Iterable[int]) -> bytes:
    """The stored plan of a table. Refusals 1, 2, 3, 4."""
    stored = ctypes.create_string_buffer(LONGEST_PLAN)
    length = _call("plan", *_lent_table(rows, columns, denominator, cells), stored, LONGEST_PLAN)
    return stored.raw[:length]


class Reason(NamedTuple):
    """Why an array has the weight that it has: the first entry that bears no more weight of it. Its `kind` is "cell", "row total", "column total" or "grand
    total"; `row` and `column` count from 1, and are None where the kind has none; `rounded` is "down" or "up", or "all whole" for the last array, whose entry
    is the first cell. As text it is a sentence without its end."""

    kind: str
    row: int | None
    column: int | None
    rounded: str

    def __str__(self) -> str:
        if self.rounded == "all whole":
            return "all entries are whole"
        entry = {
            "cell": f"the cell in row {self.row} and column {self.column}",
            "row total": f"the total of row {self.row}",
            "column total": f"the total of column {self.column}",
            "grand total": "the grand total",
        }[self.kind]
        return f"{entry}, rounded {self.rounded}"


def reason(rows: int, columns: int, denominator: int, cells: Iterable[int], array: int) -> Reason:
    """Which entry set the weight of an array of the table's plan, counted from 1. Refusals 1, 2, 3, 4, 14."""
    reply = (c_uint32 * 4)()
    _call("reason", *_lent_table(rows, columns, denominator, cells), _word(array), reply, 4)
    kind, row, column, direction = reply
    return Reason(_KINDS[kind], row or None, column or None, _ROUNDED[direction])


class Array(NamedTuple):
    """An array of a plan: how many draw numbers belong to it, and its counts in row order."""

    weight: int
    counts: list[int]


class Variances(NamedTuple):
    """How much the cells of a plan vary, exactly: the sum of all cell variances, and the smallest and the largest covariance of two different cells (0 and 0
    if there is one cell), as numerators over the squared denominator. A covariance is negative if one cell tends to replace the other."""

    variance_sum: int
    smallest_covariance: int
    largest_covariance: int


class Plan:
    """An opened plan, whoever made it: its bytes `stored`, and its `rows`, `columns`, `array_count`, `denominator` and `cells`. It opens if it is laid out as a
    plan (else refusal 5), no cell is above 1000 times the denominator, each weight is at least 1, the weights add up to the denominator, each array keeps every
    cell, row, column and the whole at its expectation rounded down or up, and the weighted arrays add up to the table (else refusal 6)."""

    def __init__(self, stored: bytes):
        self.stored = memoryview(stored).tobytes()
        sizes = (c_uint32 * 4)()
        _call("sizes", self.stored, len(self.stored), sizes, 4)
        self.rows, self.columns, self.array_count, self.denominator = sizes
        cells = (c_uint32 * (self.rows * self.columns))()
        _call("cells", self.stored, len(self.stored), cells, len(cells))
        self._cells = tuple(cells)

    @property
    def cells(self) -> list[int]:
        """The table's cells, in row order."""
        return list(self._cells)

    def arrays(self) -> list[Array]:
        """The arrays with their weights, in order."""
        return [self.array(number) for number in range(1, self.array_count + 1)]

    def array(self, number: int) -> Array:
        """An array with its weight, counted from 1 as `reason` counts. Refusal 14."""
        weight, counts = (c_uint32 * 1)(), (c_uint16 * len(self._cells))()
        _call("array", self.stored, len(self.stored), _word(number), weight, 1, counts, len(counts))
        return Array(weight[0], list(counts))

    def draw(self, number: int) -> list[int]:
        """The array that belongs to a draw number, from 0 to the denominator minus 1. Refusal 8."""
        counts = (c_uint16 * len(self._cells))()
        _call("draw", self.stored, len(self.stored), _word(number), counts, len(counts))
        return list(counts)

    def variances(self) -> Variances:
        """The sum of all cell variances, the smallest and the largest covariance of two different cells: numerators over the squared denominator."""
        numerators = (c_int64 * 3)()
        _call("variances", self.stored, len(self.stored), numerators, 3)
        return Variances(*numerators)


class Campaign:
    """Draws in rounds that use every number of a plan once; a new round begins by itself, until 1,000 are completed. It starts anew, or goes on from the
    `record` of an earlier one: refusal 9 if that does not fit the plan, and ValueError if the bytes are no stored record, as where a file was cut short. A
    record of form 1, from before there were rounds, has completed none, or one if all its numbers are taken; in form 2 that does not fit."""

    def __init__(self, plan: Plan, record: bytes | None = None):
        self.plan = plan
        self._counted, self._bits, self._tally = _Record(), (c_uint8 * ((plan.denominator + 7) // 8))(), (c_uint64 * len(plan.cells))()
        self._lent = ctypes.byref(self._counted), self._bits, len(self._bits), self._tally, len(self._tally)
        _call("start", plan.stored, len(plan.stored), *self._lent)
        if record is not None:
            self._restore(memoryview(record).tobytes())
            try:
                self.draw(0)  # tells whether the record fits the plan, and is undone below
            except Refusal as refusal:
                if refusal.number not in (10, 13):
                    raise
            self._restore(memoryview(record).tobytes())

    def _restore(self, record: bytes) -> None:
        begin, form, rounds, taken, bits, tally = _HEAD.unpack(record[: _HEAD.size].ljust(_HEAD.size, b"\0"))
        if begin != b"LUFR" or form not in _SUMS or (form == 1 and rounds != 0):
            raise ValueError("the bytes are not a stored record of form 1 or 2")
        if len(record) != _HEAD.size + bits + tally * struct.calcsize("<" + _SUMS[form]):
            raise ValueError("the stored record is cut short or too long")
        if (bits, tally) != (len(self._bits), len(self._tally)):
            raise Refusal(9)
        self._counted.taken, self._counted.rounds, self._bits[:] = taken, rounds, record[_HEAD.size : _HEAD.size + bits]
        self._tally[:] = struct.unpack_from(f"<{tally}{_SUMS[form]}", record, _HEAD.size + bits)
        all_taken = ((1 << self.plan.denominator) - 1).to_bytes(bits, "little")
        if (form, taken, bytes(self._bits)) == (1, self.plan.denominator, all_taken):
            # No record has all numbers taken any more: a file of form 1 that does is converted to a completed round.
            self._counted.taken, self._counted.rounds, self._bits[:] = 0, 1, bytes(bits)

    def draw(self, number: int) -> list[int]:
        """Takes a number and gives its array; the last free number completes the round. Chances hold only if it is drawn evenly among the free ones.
        Refusals 8, 13, 10."""
        counts = (c_uint16 * len(self.plan.cells))()
        _call("campaign_draw", self.plan.stored, len(self.plan.stored), _word(number), *self._lent, counts, len(counts))
        return list(counts)

    def draw_random(self) -> list[int]:
        """Takes one of the free numbers, each with the same chance, by the operating system's random numbers. Refusal 13."""
        return self.draw(secrets.choice(self.free))

    @property
    def free(self) -> list[int]:
        """The numbers that are not taken in this round, of which there is always one; after 1,000 rounds all, though draws are refused then."""
        return [number for number in range(self.plan.denominator) if not self._bits[number // 8] >> number % 8 & 1]

    @property
    def tally(self) -> list[int]:
        """The sum of the arrays drawn so far, in all rounds; after a completed round it is the rounds times the table's cells."""
        return list(self._tally)

    @property
    def rounds(self) -> int:
        """How many rounds are completed, from 0 to 1,000."""
        return self._counted.rounds

    @property
    def record(self) -> bytes:
        """What to keep so that the campaign can go on later, in the form of the Rust crate's records, which is 2."""
        head = _HEAD.pack(b"LUFR", 2, self._counted.rounds, self._counted.taken, len(self._bits), len(self._tally))
        return head + bytes(self._bits) + bytes(self._tally)
