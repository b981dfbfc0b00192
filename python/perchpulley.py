"""Perchpulley for Python: a proved player of 2A03 sound logs, over its shared object.

    import perchpulley as perch
    log = open("examples/tune.log", "rb").read()
    print(perch.check(log))                     # clocks, machine, turns and items, or a Refused
    chip = perch.state_at(log, 600000).chip     # the state at a clock
    print(chip.why("square1"), chip.level)
    clocks, levels = perch.levels(log)          # every level and the clock at which it begins
    open("tune.wav", "wb").writelines(perch.wav(log))  # the log as a sound

play, state_at and wav take a recording: a log, or the bytes of a VGM file; all else takes a log.

One file, no packages. It loads the shared object that PERCHPULLEY_LIBRARY names, else that of the folder it was installed to, else the
one that the loader finds. Sample memory is 32,768 bytes, $8000 to $FFFF; where it isn't given it is zeros. A refusal is raised as Refused,
with its number, its place and its words; include/perchpulley.h has the functions below, and every answer.
"""

import ctypes
import os
from array import array
from collections import namedtuple
from ctypes import c_float, c_size_t, c_uint8, c_uint16, c_uint32, c_uint64, c_void_p

VERSION = 12  # of the library that this file is for
MEMORY = 32768  # bytes of sample memory
NTSC, PAL = 0, 1  # the machines
MOST_CLOCKS = 1000000  # clocks that one run of the library may be asked for
_ROOM = 65536  # words for the records of one run

Checked = namedtuple("Checked", "clocks machine turns items")
Wait = namedtuple("Wait", "clocks")
Write = namedtuple("Write", "register value")
Read = namedtuple("Read", "")
Accessed = namedtuple("Accessed", "byte level differs")
Ran = namedtuple("Ran", "done clocks levels")
At = namedtuple("At", "chip clock")
Outputs = namedtuple("Outputs", "square1 square2 triangle noise dmc")
Levels = namedtuple("Levels", "clocks levels")
Meter = namedtuple("Meter", "case lowest highest")
Samples = namedtuple("Samples", "memory blocks")

_CHANNELS = {"square1": 0, "square2": 1, "noise": 3}
_REASONS = ("disabled", "length", "period", "sweep", "step", "volume")
_CASES = ("none", "silent", "steady", "moving")

class Refused(Exception):
    """A refusal: its number, of a log, a stream or a VGM file also its place, a byte offset from 0."""

    def __init__(self, number, place=0):
        self.number, self.place = number, place
        self.words = _words(number)
        super().__init__(f"refused={number}:{place}: {self.words}")


_SLICE = [c_void_p, c_size_t]
_FUNCTIONS = {
    "version": (c_uint32, []),
    "state_size": (c_size_t, []),
    "power_on": (c_uint64, _SLICE + [c_uint8]),
    "in_range": (c_uint64, _SLICE),
    "access": (c_uint64, _SLICE + [c_uint8, c_uint16, c_uint8]),
    "interrupt_line": (c_uint64, _SLICE),
    "level": (c_uint64, _SLICE),
    "outputs": (c_uint64, _SLICE),
    "status": (c_uint64, _SLICE),
    "run": (c_uint64, _SLICE + _SLICE + [c_uint64] + _SLICE + _SLICE),
    "why": (c_uint64, _SLICE + [c_uint64]),
    "next_interrupt": (c_uint64, _SLICE + _SLICE + [c_uint64, c_uint8]),
    "meter": (c_uint64, _SLICE),
    "level_fraction": (c_float, [c_uint16]),
    "check": (c_uint64, _SLICE),
    "turns": (c_uint64, _SLICE),
    "items": (c_uint64, _SLICE),
    "item": (c_uint64, _SLICE + [c_uint64]),
    "state_at": (c_uint64, _SLICE + _SLICE + _SLICE + [c_uint64]),
    "import_for": (c_uint64, _SLICE + [c_uint8] + _SLICE),
    "samples": (c_uint64, _SLICE + _SLICE),
    "cursor_size": (c_size_t, []),
    "cursor_start": (c_uint64, _SLICE),
    "cursor_next": (c_uint64, _SLICE + _SLICE),
    "player_size": (c_size_t, []),
    "begin": (c_uint64, _SLICE + _SLICE + _SLICE),
    "play_on": (c_uint64, _SLICE + _SLICE + _SLICE + _SLICE),
    "wav_size": (c_size_t, []),
    "wav_begin": (c_uint64, _SLICE + _SLICE + _SLICE + [c_uint32]),
    "wav_on": (c_uint64, _SLICE + _SLICE + _SLICE + _SLICE),
    "reason": (c_uint64, [c_uint8] + _SLICE),
}


def _loaded():
    """The shared object, with the form of each function that is called here."""
    name = f"libperchpulley.so.{VERSION}"
    installed = os.path.join(os.path.dirname(os.path.abspath(__file__)), "..", "..", "lib", name)
    path = os.environ.get("PERCHPULLEY_LIBRARY") or (installed if os.path.exists(installed) else name)
    try:
        library = ctypes.CDLL(path)
    except OSError as error:
        raise ImportError(f"{error}; PERCHPULLEY_LIBRARY may name it, and ./install PREFIX makes it") from error
    for function, (result, words) in _FUNCTIONS.items():
        function = getattr(library, "perch_" + function)
        function.restype, function.argtypes = result, words
    version = library.perch_version()
    if version != VERSION:
        raise ImportError(f"{path} is of version {version}, and perchpulley.py of version {VERSION}")
    return library


_library = _loaded()


def _words(number):
    """A refusal's number in words."""
    text = (c_uint8 * 60)()
    return bytes(text[: _library.perch_reason(number, text, len(text)) >> 32]).decode()


def _value(answer):
    """The value of an answer, or its refusal."""
    if answer & 0xFF:
        raise Refused(answer & 0xFF)
    return answer >> 8


def _log_value(answer):
    """The value of an answer about a log, or its refusal."""
    if answer & 0xFF:
        raise Refused(answer & 0xFF, answer >> 8 & 0xFFFFFF)
    return answer >> 32


def _stream_value(answer):
    """The value of an answer about a stream, or its refusal."""
    if answer & 0xFF:
        raise Refused(answer & 0xFF, answer >> 8)
    return answer >> 8


def _bytes(memory):
    """Sample memory as bytes."""
    return bytes(MEMORY) if memory is None else bytes(memory)


def check(log):
    """Checks a log, bytes: its clocks in all, its machine, its turns and how many items it stands for."""
    log = bytes(log)
    value = _log_value(_library.perch_check(log, len(log)))
    turns, count = (_log_value(ask(log, len(log))) for ask in (_library.perch_turns, _library.perch_items))
    return Checked(value & 0x7FFFFFFF, value >> 31, turns, count)


def _item(value):
    """The item of a value, none at the log's end."""
    kind, held = value >> 24, value & 0xFFFFFF
    return {1: Wait(held), 2: Write(held >> 8, held & 0xFF), 3: Read()}.get(kind)


def item(log, k):
    """Item k of a log, from 0, its loops unrolled."""
    log = bytes(log)
    return _item(_log_value(_library.perch_item(log, len(log), k)))


def items(log):
    """The items of a log that passes, one behind the other, its loops unrolled: Wait, Write and Read."""
    log = bytes(log)
    check(log)
    cursor = (c_uint8 * _library.perch_cursor_size())()
    _value(_library.perch_cursor_start(cursor, len(cursor)))

    def walk():
        while True:
            found = _item(_log_value(_library.perch_cursor_next(cursor, len(cursor), log, len(log))))
            if found is None:
                return
            yield found

    return walk()


class Chip:
    """A chip's state, at power-on or from bytes that were kept."""

    def __init__(self, machine=NTSC, state=None):
        self._state = (c_uint8 * _library.perch_state_size())()
        if machine not in (NTSC, PAL):
            raise Refused(2)
        if state is None:
            _value(_library.perch_power_on(self._state, len(self._state), machine))
        else:
            state = bytes(state)
            if not _value(_library.perch_in_range(state, len(state))):
                raise Refused(2)
            self._state[:] = state

    def __bytes__(self):
        """The state's bytes, in the order of document 01, then the machine."""
        return bytes(self._state)

    def __eq__(self, other):
        return isinstance(other, Chip) and bytes(self) == bytes(other)

    __hash__ = None

    def copy(self):
        """A chip of its own in the same state."""
        return Chip(state=bytes(self))

    @property
    def machine(self):
        """NTSC or PAL."""
        return self._state[-1]

    @property
    def level(self):
        """The mixed level, 0 to 32767."""
        return _value(_library.perch_level(self._state, len(self._state)))

    @property
    def outputs(self):
        """What the five channels give the mixer: 0 to 15 each, the DMC 0 to 127."""
        value = _value(_library.perch_outputs(self._state, len(self._state)))
        return Outputs(*(value >> place & 0xF for place in (0, 4, 8, 12)), value >> 16)

    @property
    def status(self):
        """The byte that a read would give; nothing is cleared."""
        return _value(_library.perch_status(self._state, len(self._state)))

    @property
    def interrupt(self):
        """Whether the interrupt line is asserted."""
        return bool(_value(_library.perch_interrupt_line(self._state, len(self._state))))

    def _access(self, read, register, value):
        value = _value(_library.perch_access(self._state, len(self._state), read, register, value))
        return Accessed(value & 0xFF, value >> 8 & 0xFFFF, bool(value >> 24 & 1))

    def write(self, register, value):
        """Writes a register, 0x4000 to 0x4017: the level after it and whether that differs from before."""
        if not 0 <= value <= 0xFF:
            raise ValueError("a value is a byte")
        if not 0 <= register <= 0xFFFF:
            raise Refused(4)
        return self._access(0, register, value)

    def read(self):
        """Reads $4015, which clears the frame's flag: the byte, the level and whether that differs."""
        return self._access(1, 0, 0)

    def run(self, count, memory=None, dwell=None):
        """Works count clocks, any number of them. Ran has the clocks done and two arrays: of each clock whose level differs from that
        before its number, from 1, and its level. A dwell table, an array("I") of 128 counts, has the clocks that the DMC level
        stood at each of its values added; where a count would pass 4,000,000,000 fewer clocks are done."""
        memory, words = _bytes(memory), (c_uint32 * _ROOM)()
        counts = (c_uint32 * 128)() if dwell is None else (c_uint32 * len(dwell))(*dwell)
        done, clocks, levels_ = 0, array("I"), array("I")
        while done < count:
            asked = min(count - done, MOST_CLOCKS)
            state = self._state
            value = _value(
                _library.perch_run(state, len(state), memory, len(memory), asked, words, _ROOM, counts, len(counts))
            )
            ran, records = value & 0xFFFFFF, value >> 24
            clocks.extend(done + clock for clock in words[: 2 * records : 2])
            levels_.extend(words[1 : 2 * records : 2])
            done += ran
            if ran == 0:
                break
        if dwell is not None:
            dwell[:] = array("I", counts)
        return Ran(done, clocks, levels_)

    def why(self, channel):
        """Why "square1", "square2" or "noise" is silent: the first true one of disabled, length, period, sweep, step (of the noise bit)
        and volume; else "sounds:N", the channel's number from 1 to 15."""
        if channel not in _CHANNELS:
            raise Refused(24)
        value = _value(_library.perch_why(self._state, len(self._state), _CHANNELS[channel]))
        if value > 16:
            return f"sounds:{value - 16}"
        return "bit" if value == 5 and channel == "noise" else _REASONS[value - 1]

    def next_interrupt(self, count, memory=None, which=0):
        """The least number of clocks, 0 to count, after which the interrupt line is asserted (which=1: the frame's flag is set, 2: the
        DMC's); None where it isn't within the count, 1,000,000 at most. No clock is worked."""
        memory = _bytes(memory)
        state = self._state
        value = _value(_library.perch_next_interrupt(state, len(state), memory, len(memory), count, which))
        return value >> 24 if value & 1 else None


def _passed(log, memory):
    """The log's bytes and the memory's; a log that doesn't pass and memory of another length are refused, the memory first."""
    log, memory = bytes(log), _bytes(memory)
    if len(memory) != MEMORY:
        raise Refused(1)
    return log, memory, check(log)


def state_at(log, clock, memory=None):
    """The chip at a clock of a recording, the accesses stamped with it among them; past its end the chip at its end. At has the chip and
    the clock where it stands."""
    log, memory, chip = bytes(log), _bytes(memory), Chip()
    state = chip._state
    lent = (state, len(state), log, len(log), memory, len(memory))
    return At(chip, _log_value(_library.perch_state_at(*lent, min(max(clock, 0), 2**64 - 1))))


def levels(log, memory=None):
    """Every level of a log and the clock at which it begins, as two arrays: those of the player's `level=` lines."""
    log, memory, checked = _passed(log, memory)
    chip, time = Chip(checked.machine), 0
    clocks, heights = array("I", [0]), array("I", [chip.level])
    for act in items(log):
        if isinstance(act, Wait):
            ran = chip.run(act.clocks, memory)
            clocks.extend(time + clock for clock in ran.clocks)
            heights.extend(ran.levels)
            time += act.clocks
        else:
            accessed = chip.write(act.register, act.value) if isinstance(act, Write) else chip.read()
            if accessed.differs:
                clocks.append(time)
                heights.append(accessed.level)
    return Levels(clocks, heights)


def imported(stream, machine=NTSC):
    """The log of a VGM stream, the bytes behind a VGM file's header and its data blocks, for a machine."""
    stream, text = bytes(stream), (c_uint8 * 60000)()
    if machine not in (NTSC, PAL):
        raise Refused(2)
    return bytes(text[: _stream_value(_library.perch_import_for(stream, len(stream), machine, text, len(text)))])


def samples(stream):
    """The sample memory that the sample blocks in front of a VGM stream's commands hold, 0 elsewhere, and how many blocks they are."""
    stream, memory = bytes(stream), (c_uint8 * MEMORY)()
    blocks = _stream_value(_library.perch_samples(stream, len(stream), memory, len(memory)))
    return Samples(bytes(memory), blocks)


def meter(values):
    """What levels are: "none", "silent" (all 0), "steady" (all equal) or "moving", with the lowest and the highest of them."""
    values = array("I", values)
    words = (c_uint32 * (len(values) + 1))(*values)  # one more, so that there is a pointer where there is no level
    value = _value(_library.perch_meter(words, len(values)))
    return Meter(_CASES[value & 0xFF], value >> 8 & 0xFFFF, value >> 24)


def fraction(level):
    """A level over 32,768."""
    return _library.perch_level_fraction(level)


def _pieces(on, lent):
    """What a function writes, piece by piece, until it says over."""
    room, over = (c_uint8 * 65536)(), False
    while not over:
        answer = on(*lent, room, len(room))
        written, over = _log_value(answer), bool(answer >> 8 & 1)
        yield bytes(room[:written])


def play(log, memory=None):
    """The text that the player writes for a recording, in pieces of whole lines."""
    log, memory = bytes(log), _bytes(memory)
    player = (c_uint8 * _library.perch_player_size())()
    lent = (player, len(player), log, len(log), memory, len(memory))
    _log_value(_library.perch_begin(*lent))
    return _pieces(_library.perch_play_on, lent)


def wav(log, memory=None, rate=44100):
    """The WAV file of a recording, 16 bits and one channel, at a rate from 8,000 to 192,000 samples a second, in pieces: joined they are the file.
    A sample is the mean of the levels after its clocks, exact to the clock, 0 to 32767."""
    log, memory = bytes(log), _bytes(memory)
    file = (c_uint8 * _library.perch_wav_size())()
    lent = (file, len(file), log, len(log), memory, len(memory))
    _log_value(_library.perch_wav_begin(*lent, min(max(rate, 0), 2**32 - 1)))
    return _pieces(_library.perch_wav_on, lent)
