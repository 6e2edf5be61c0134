"""Wizbratel: linear tables from pCRL process sheets, and steps through them, by the proved library.

A sheet is a text of processes, a table the file that is made of it, a stack where its process stands:

    >>> table = Table.make("sort D 2; act in: D; act out: D; proc Buf = sum(d: D, in(d).out(d).Buf); init Buf;")
    >>> stack = table.start()
    >>> for step in stack.steps():
    ...     print(step.k, step.label, step.stack.depth)
    0 in(0) 2
    1 in(1) 2
    >>> label, stack = stack.take(1)
    >>> label.name, label.sorts, label.values
    ('in', ('D',), (1,))

What is not right raises Refused, with the number of the first question that it fails, and its words:

    >>> check("proc X = X; init X;")
    Traceback (most recent call last):
    ...
    wizbratel.Refused: question 9: no process that comes back to itself through first parts alone, without an action before it?

All answers are the library's: nothing here decides anything about a sheet, a table or a stack. The library is
libwizbratel.so.0 in the folder that the variable WIZBRATEL_LIB names, else in the nearest folder lib above this file, else
where the loader finds it. Calls let other threads of Python run meanwhile.
"""
import ctypes
import os
import pathlib
from collections import namedtuple

__all__ = ["Asked", "FRAMES", "Frame", "Label", "Refused", "Stack", "Step", "Table", "check", "question", "version", "walk"]

FRAMES = 64
_MAX_SHEET, _MAX_FILE, _MAX_WALK = 4096, 65536, 238
_ENDED, _NONE, _STEP, _TOO_DEEP = 0, 1, 2, 16
_SONAME = "libwizbratel.so.0"


class _Frame(ctypes.Structure):
    """wizbratel_frame"""
    _fields_ = [("equation", ctypes.c_uint8), ("values", ctypes.c_uint8 * 4)]


class _Sort(ctypes.Structure):
    """wizbratel_sort"""
    _fields_ = [("length", ctypes.c_uint8), ("name", ctypes.c_char * 19)]


class _Label(ctypes.Structure):
    """wizbratel_label"""
    _fields_ = [("value_count", ctypes.c_uint8), ("values", ctypes.c_uint8 * 2), ("name_length", ctypes.c_uint8),
                ("name", ctypes.c_char * 17), ("sorts", _Sort * 2)]


class _Answer(ctypes.Structure):
    """wizbratel_answer"""
    _fields_ = [("kind", ctypes.c_uint8), ("depth", ctypes.c_uint8), ("label", _Label),
                ("reserved", ctypes.c_uint8), ("reserved_for_count", ctypes.c_uint64)]


_Frames = _Frame * FRAMES


def _library():
    """The shared library, with the functions' types."""
    folder = os.environ.get("WIZBRATEL_LIB")
    above = (place / "lib" / _SONAME for place in pathlib.Path(__file__).resolve().parents)
    found = os.path.join(folder, _SONAME) if folder else next((str(path) for path in above if path.is_file()), _SONAME)
    library = ctypes.CDLL(found)
    data, size, number = ctypes.c_char_p, ctypes.c_size_t, ctypes.c_uint8
    place = ctypes.POINTER(size)
    table, stack = [data, size], [ctypes.POINTER(_Frame), size, place]
    types = {
        "check_sheet": (number, table),
        "make_table": (number, table + [data, size, place]),
        "walk": (size, table + [data, size]),
        "check_table": (number, table),
        "print_table": (number, table + [data, size, place]),
        "start": (number, table + stack),
        "ask": (number, table + stack + [ctypes.c_uint64, ctypes.POINTER(_Answer)]),
        "ask_all": (number, table + stack + [ctypes.POINTER(ctypes.c_uint64), size, ctypes.POINTER(_Answer), size]),
        "question": (data, [number]),
        "version": (data, []),
    }
    for name, (result, arguments) in types.items():
        function = getattr(library, "wizbratel_" + name)
        function.restype, function.argtypes = result, arguments
    return library


_LIBRARY = _library()


class Refused(ValueError):
    """A refusal by the library. `number` is that of the first question that fails, 1 to 17, `question` its words."""

    def __init__(self, number):
        self.number, self.question = number, question(number)
        super().__init__("question %d: %s" % (number, self.question))

    def __reduce__(self):
        return Refused, (self.number,)


def _unless_zero(number):
    if number:
        raise Refused(number)


def question(number):
    """What a question asks, in words; no characters if no question has this number.

    >>> question(16)
    'at most 64 frames after the step?'
    """
    return _LIBRARY.wizbratel_question(number).decode("ascii") if 0 <= number < 256 else ""


def version():
    """The version of the library."""
    return _LIBRARY.wizbratel_version().decode("ascii")


def _bytes(sheet):
    """A sheet as bytes; characters beyond ASCII are for the library to refuse."""
    return sheet.encode("utf-8") if isinstance(sheet, str) else bytes(sheet)


def check(sheet):
    """Checks a sheet, text or bytes: questions 1 to 10."""
    sheet = _bytes(sheet)
    _unless_zero(_LIBRARY.wizbratel_check_sheet(sheet, len(sheet)))


def walk(sheet):
    """The walk of a sheet, step 0 up to 8 times, as text; of one that fails a question `refused` and its number.

    >>> walk("act a; proc X = a; init X;")
    '1 a 0\\nended\\n'
    """
    sheet, out = _bytes(sheet), ctypes.create_string_buffer(_MAX_WALK)
    length = _LIBRARY.wizbratel_walk(sheet, len(sheet), out, _MAX_WALK)
    return out.raw[:length].decode("ascii")


def _written(function, given, room):
    """The output of a function that writes as much as it says."""
    out, written = ctypes.create_string_buffer(room), ctypes.c_size_t()
    _unless_zero(function(given, len(given), out, room, ctypes.byref(written)))
    return out.raw[:written.value]


class Label(namedtuple("Label", "name sorts values")):
    """The label of a step: the action's name, or `tau`, the names of its sorts, and its values."""
    __slots__ = ()

    @property
    def is_tau(self):
        return self.name == "tau"

    def __str__(self):
        return self.name + ("(%s)" % ",".join(map(str, self.values)) if self.values else "")


def _label(answer):
    label = answer.label
    count = label.value_count
    sorts = tuple(sort.name.decode("ascii") for sort in label.sorts[:count])
    return Label(label.name.decode("ascii"), sorts, tuple(label.values[:count]))


Frame = namedtuple("Frame", "equation values", defaults=((0, 0, 0, 0),))
Frame.__doc__ = "A frame: an equation and the four values of its parameters, spare ones 0."

Step = namedtuple("Step", "k label stack")
Step.__doc__ = "Step k of a stack; label and stack are None if the stack after it would have more than 64 frames (question 16)."

Asked = namedtuple("Asked", "kind label depth")
Asked.__doc__ = "An answer of a list: `ended`, `none`, `too deep`, or `step` with its label and the depth after it."


class Table:
    """A table, held as its file. Tables are equal if their files are."""
    __slots__ = ("file",)

    def __init__(self, file):
        """Reads a table file: questions 12 to 14."""
        file = bytes(file)
        _unless_zero(_LIBRARY.wizbratel_check_table(file, len(file)))
        self.file = file

    @classmethod
    def make(cls, sheet):
        """Makes the table of a sheet, text or bytes: questions 1 to 10."""
        return cls(_written(_LIBRARY.wizbratel_make_table, _bytes(sheet), _MAX_FILE))

    def print(self):
        """The table as a sheet, whose table is this one: question 17.

        >>> Table.make("act a; proc X = a.X; init X;").print()
        'act a;proc p0=a.p0;init p0;'
        """
        return _written(_LIBRARY.wizbratel_print_table, self.file, _MAX_SHEET).decode("ascii")

    def start(self):
        """The stack with which the table starts."""
        frames, depth = _Frames(), ctypes.c_size_t()
        _unless_zero(_LIBRARY.wizbratel_start(self.file, len(self.file), frames, FRAMES, ctypes.byref(depth)))
        return Stack(self, frames, depth.value)

    def stack(self, frames):
        """The stack of these frames, the bottom first and the top last: question 15."""
        frames = list(frames)
        lent = (_Frame * max(FRAMES, len(frames)))()
        for place, (equation, values) in zip(lent, frames):
            if not 0 <= equation < 256 or len(values) != 4 or not all(0 <= value < 256 for value in values):
                raise ValueError("a frame is an equation and four values, each of one byte")
            place.equation, place.values = equation, tuple(values)
        depth = ctypes.c_size_t(len(frames))
        # a list of no questions puts 12 to 15; more frames than a stack has are for the library to refuse
        _unless_zero(_LIBRARY.wizbratel_ask_all(self.file, len(self.file), lent, len(lent), ctypes.byref(depth), None, 0, None, 0))
        return Stack(self, lent, depth.value)

    def __eq__(self, other):
        return isinstance(other, Table) and self.file == other.file

    def __hash__(self):
        return hash(self.file)

    def __repr__(self):
        return "Table(%d bytes)" % len(self.file)


class Stack:
    """A stack of a table: where a process stands. It never changes, and can be a key: stacks are equal if their tables and
    frames are. Table.start and Table.stack give one."""
    __slots__ = ("table", "depth", "_frames")

    def __init__(self, table, frames, depth):
        self.table, self.depth, self._frames = table, depth, bytes(frames)

    @property
    def ended(self):
        """Whether the process has ended: no frame is used."""
        return self.depth == 0

    @property
    def frames(self):
        """The used frames, the bottom first and the top last."""
        used = _Frames.from_buffer_copy(self._frames)[:self.depth]
        return [Frame(frame.equation, tuple(frame.values)) for frame in used]

    def take(self, k):
        """Step k, from 0: its label and the stack after it, or None if there is no such step. Question 16 refuses a step
        after which there would be more than 64 frames."""
        (table, *lent), answer = self._lent(), _Answer()
        _unless_zero(_LIBRARY.wizbratel_ask(table, len(table), *lent, _number(k), ctypes.byref(answer)))
        return (_label(answer), self._after(lent)) if answer.kind == _STEP else None

    def run(self, ks):
        """Takes a list of steps, each from the stack that the one before it left: what was answered to each, and the stack
        after the last one. The fast way, since the table is checked once.

        >>> stack = Table.make("act a; act b; proc X = a.b; init X;").start()
        >>> answers, after = stack.run([0, 7, 0, 0])
        >>> [answer.kind for answer in answers], after.ended
        (['step', 'none', 'step', 'ended'], True)
        """
        ks = [_number(k) for k in ks]
        (table, *lent), answers = self._lent(), (_Answer * len(ks))()
        questions = (ctypes.c_uint64 * len(ks))(*ks)
        _unless_zero(_LIBRARY.wizbratel_ask_all(
            table, len(table), *lent, questions, len(ks), answers, ctypes.sizeof(answers)))
        return [_asked(answer) for answer in answers], self._after(lent)

    def steps(self):
        """All steps in order, one by one."""
        k = 0
        while True:
            try:
                taken = self.take(k)
            except Refused:
                taken = (None, None)
            if taken is None:
                return
            yield Step(k, *taken)
            k += 1

    def _lent(self):
        """The table's file, then a copy of the frames, their count, and the depth, which a function writes."""
        return self.table.file, _Frames.from_buffer_copy(self._frames), FRAMES, ctypes.byref(ctypes.c_size_t(self.depth))

    def _after(self, lent):
        frames, _, depth = lent
        return Stack(self.table, frames, depth._obj.value)

    def __eq__(self, other):
        return isinstance(other, Stack) and self._frames == other._frames and self.depth == other.depth and self.table == other.table

    def __hash__(self):
        return hash((self._frames, self.depth))

    def __repr__(self):
        return "Stack(%r)" % self.frames


def _number(k):
    """A step's number, which has 64 bits."""
    if not 0 <= k < 1 << 64:
        raise ValueError("a step's number is 0 to 2**64 - 1")
    return k


def _asked(answer):
    kind = {_ENDED: "ended", _NONE: "none", _STEP: "step", _TOO_DEEP: "too deep"}[answer.kind]
    return Asked(kind, _label(answer), answer.depth) if kind == "step" else Asked(kind, None, None)
