"""The balise bench checker's library for Python: ctypes over libatc2.so, nothing else.

The library is looked for at $ATC2_LIBRARY and beside this file, as ./install lays it. A refusal is a Refused with the documents' number and words;
a figure that C would cut short is a ValueError.
"""
import ctypes
import os

REFUSALS = {
    1: "not a code word", 2: "figure to write above 15 or above 2,047", 3: "a short word of a telegram reads 15",
    4: "sync pair doesn't differ in seven bits", 5: "stretch beyond the buffer, or above 16,777,216 bits", 6: "no place in the stretch", 7: "places differ",
    8: "contact neither telegram nor marker", 9: "contact cut by the end of the record", 15: "distance not allowed", 16: "trace length not a multiple of 8",
    18: "place above 4,000,000,000", 19: "gap outside 1 to 200", 20: "number of telegrams outside 2 to 1,000", 21: "buffer too short",
    24: "place not above the last one", 25: "more than 32 versions", 100: "line unreadable", 101: "text too long", 102: "first place not 0",
}
STORE = 1032
RIDE, EAR, NONE = 144, 184, 2**64 - 1
_TEXT = 32768


class Refused(Exception):
    """A refusal: its number, its words and, of a text, its line (0 where none is to be named)."""

    def __init__(self, number, line=0):
        self.number, self.words, self.line = number, REFUSALS.get(number, ""), line
        at = "line %d " % line if line else ""
        super().__init__("%srefused %d: %s" % (at, number, self.words))


def _load():
    here = os.path.dirname(os.path.abspath(__file__))
    places = [os.environ.get("ATC2_LIBRARY"), os.path.join(here, "libatc2.so"), os.path.join(here, "..", "lib", "libatc2.so")]
    for path in places:
        if path and os.path.exists(path):
            return ctypes.CDLL(path)
    raise OSError("libatc2.so is not found: run ./install, or set ATC2_LIBRARY")


_u8, _u16, _u32, _u64, _bytes = ctypes.c_uint8, ctypes.c_uint16, ctypes.c_uint32, ctypes.c_uint64, ctypes.POINTER(ctypes.c_uint8)
_out = ctypes.POINTER(_u64)
_SIGNATURES = {
    "atc2_read_short": (ctypes.c_int32, _u8), "atc2_write_short": (ctypes.c_int32, _u8), "atc2_read_long": (ctypes.c_int32, _u16), "atc2_write_long": (ctypes.c_int32, _u16),
    "atc2_why_word": (ctypes.c_int32, _u16, _u8), "atc2_read_telegram": (ctypes.c_int32, _u8, _u8, _u8), "atc2_why_telegram": (ctypes.c_int32, _u8, _u8, _u8),
    "atc2_find": (ctypes.c_int32, _bytes, _u64, _u64, _u64, _u8, _u8, _out), "atc2_judge": (ctypes.c_int32, _bytes, _u64, _u64, _u64, _u8, _u8, _out),
    "atc2_begin": (ctypes.c_int32, _bytes, _u64, _u64, _u64, _out), "atc2_next_contact": (ctypes.c_int32, _bytes, _u64, _out, _out),
    "atc2_write_balise": (ctypes.c_int32, _u8, _u16, _u8, _u8, _u8, _u32, _bytes, _u64), "atc2_distance": (ctypes.c_int32, _u8, _u8),
    "atc2_settings_begin": (ctypes.c_int32, _u32, _u8, _u8, _bytes), "atc2_settings_add": (ctypes.c_int32, _bytes, _u32, _u32, _u8, _u8),
    "atc2_settings_read": (ctypes.c_int32, _bytes, _u64, _bytes), "atc2_settings_line": (ctypes.c_int64, _bytes, _u64), "atc2_compact": (ctypes.c_int64, _u32, _bytes, _u64),
    "atc2_ride_begin": (ctypes.c_int32, _bytes), "atc2_ride_list": (ctypes.c_int32, _bytes, _bytes, _bytes, _u64, _u64, _u8, _bytes, _u64, _out),
    "atc2_ride_end": (ctypes.c_int32, _bytes, _u8, _bytes, _u64), "atc2_ride_known": (ctypes.c_int32, _bytes, _out),
    "atc2_record_begin": (ctypes.c_int32, _bytes), "atc2_record": (ctypes.c_int32, _bytes, _bytes, _bytes, _u64, _bytes, _u64, _out),
    "atc2_record_end": (ctypes.c_int32, _bytes, _bytes, _u64, _out),
}
_library = _load()
for _name, (_result, *_arguments) in _SIGNATURES.items():
    getattr(_library, _name).restype = _result
    getattr(_library, _name).argtypes = _arguments


def _given(number, line=0):
    """What a call returned; below 0 it is a refusal."""
    if number < 0:
        raise Refused(-number, line)
    return number


def _lent(data):
    """Bytes as a lent array: a copy, of at least one byte, since no pointer may be NULL."""
    return (ctypes.c_uint8 * max(1, len(data))).from_buffer_copy(bytes(data) or b"\0")


def _small(value, most):
    """A figure for C, which would cut a larger one short: such a one is refused as too large."""
    if not 0 <= value <= most:
        raise ValueError("%d is not within 0 to %d" % (value, most))
    return value


def _telegram(number):
    """A telegram's figures: X, Y, Z, or 12 and the number."""
    return (12, number % 65536) if number // 65536 == 12 else (number // 65536, number // 256 % 256, number % 256)


def read_short(word):
    return _given(_library.atc2_read_short(_small(word, 255)))


def write_short(figure):
    return _given(_library.atc2_write_short(_small(figure, 255)))


def read_long(word):
    return _given(_library.atc2_read_long(_small(word, 65535)))


def write_long(figure):
    return _given(_library.atc2_write_long(_small(figure, 65535)))


def parity(word, wide=False):
    """None for a code word, else "odd" or "even": the parity of its ones."""
    return (None, "odd", "even")[_library.atc2_why_word(_small(word, 65535 if wide else 255), 1 if wide else 0) // 256]


def read_telegram(x, y, z):
    return _telegram(_given(_library.atc2_read_telegram(_small(x, 255), _small(y, 255), _small(z, 255))))


def find(data, start, length, s, t):
    """The first place of a stretch of bits, and its telegram."""
    out = (_u64 * 2)()
    _given(_library.atc2_find(_lent(data), len(data), _small(start, NONE), _small(length, NONE), _small(s, 255), _small(t, 255), out))
    return out[0], _telegram(out[1])


def judge(data, start, length, s, t):
    """A contact's telegram, first place and number of places; None for a marker."""
    out = (_u64 * 3)()
    answer = _library.atc2_judge(_lent(data), len(data), _small(start, NONE), _small(length, NONE), _small(s, 255), _small(t, 255), out)
    return (_telegram(out[0]), out[1], out[2]) if _given(answer) == 1 else None


def contacts(data, start=0, length=None):
    """The contacts of a line, one after the other: start and length in bits."""
    lent, search, out = _lent(data), (_u64 * 3)(), (_u64 * 2)()
    length = max(0, len(data) * 8 - start) if length is None else length
    _given(_library.atc2_begin(lent, len(data), _small(start, NONE), _small(length, NONE), search))
    while _given(_library.atc2_next_contact(lent, len(data), search, out)) == 1:
        yield out[0], out[1]


def write_balise(x, y, z, s, t, count):
    """The bits of a test balise of so many telegrams."""
    lent = (ctypes.c_uint8 * 4001)()
    figures = _small(x, 255), _small(y, 65535), _small(z, 255), _small(s, 255), _small(t, 255), _small(count, 0xFFFFFFFF)
    return bytes(lent[: _given(_library.atc2_write_balise(*figures, lent, 4001))])


def distance(by, figure):
    return _given(_library.atc2_distance(_small(by, 255), _small(figure, 255)))


def compact(trace, gap):
    """A trace made smaller, for a fresh ride with this gap."""
    lent = _lent(trace)
    return bytes(lent[: _given(_library.atc2_compact(_small(gap, 0xFFFFFFFF), lent, len(trace)))])


class Settings:
    """A store of settings: up to 32 versions of gap, S and S*, each in force from its place on."""

    def __init__(self, gap, s, t):
        self._store = (ctypes.c_uint8 * STORE)()
        _given(_library.atc2_settings_begin(_small(gap, 0xFFFFFFFF), _small(s, 255), _small(t, 255), self._store))

    @classmethod
    def read(cls, text):
        """The settings of a text, as the programs read them with -s."""
        text = text.encode() if isinstance(text, str) else text
        settings, lent = cls.__new__(cls), _lent(text)
        settings._store = (ctypes.c_uint8 * STORE)()
        number = _library.atc2_settings_read(lent, len(text), settings._store)
        _given(number, _library.atc2_settings_line(lent, len(text)) if number < 0 else 0)
        return settings

    def add(self, place, gap, s, t):
        _given(_library.atc2_settings_add(self._store, _small(place, 0xFFFFFFFF), _small(gap, 0xFFFFFFFF), _small(s, 255), _small(t, 255)))

    def __bytes__(self):
        return bytes(self._store)


class Ride:
    """A ride over the records of a trace under some settings: its lines, and what is known on the way."""

    def __init__(self, settings):
        self._settings, self._ride, self._text = settings, (ctypes.c_uint8 * RIDE)(), (ctypes.c_uint8 * _TEXT)()
        self.begin()

    def begin(self):
        """A fresh ride; the next record is number 1."""
        self.number = 1
        _given(_library.atc2_ride_begin(self._ride))

    def list(self, records, reasons=False):
        """The lines of some whole records, as text; the ride moves on past them."""
        lent, out, lines, at = _lent(records), (_u64 * 2)(), b"", 0
        while True:
            rest = ctypes.cast(ctypes.byref(lent, at), _bytes) if at < len(records) else lent
            _given(_library.atc2_ride_list(self._ride, self._settings._store, rest, len(records) - at, self.number, 1 if reasons else 0, self._text, _TEXT, out))
            lines += bytes(self._text[: out[1]])
            self.number, at = self.number + out[0], at + 8 * out[0]
            if at >= len(records):
                return lines.decode("ascii")

    def end(self, reasons=False):
        """The line of the group that the end closes, or no text; the ride stays as it is."""
        return bytes(self._text[: _given(_library.atc2_ride_end(self._ride, 1 if reasons else 0, self._text, _TEXT))]).decode("ascii")

    def known(self):
        """What is known: odometer, linking (distance and place), main, target and number; None for what is not set."""
        out = (_u64 * 6)()
        _given(_library.atc2_ride_known(self._ride, out))
        odometer, distance, place, main, target, number = (None if figure == NONE else figure for figure in out)
        return {"odometer": odometer, "linking": None if distance is None else (distance, place), "main": main, "target": target, "number": number}

    def __bytes__(self):
        return bytes(self._ride)


class Ear:
    """An ear at a lead: frames in, records of a trace out, 8 bytes each, as they come. Bytes after the last whole frame wait for what follows them."""

    def __init__(self, settings):
        self._ear, self._settings, self._rest = (ctypes.c_uint8 * EAR)(), settings, b""
        _given(_library.atc2_record_begin(self._ear))

    def hear(self, frames):
        """The records that come of these bytes of the lead."""
        lead, at, records = self._rest + bytes(frames), 0, []
        room, out = (ctypes.c_uint8 * 4096)(), (_u64 * 2)()
        while len(lead) - at >= 16:
            piece = lead[at : at + 65536]
            _given(_library.atc2_record(self._ear, self._settings._store, _lent(piece), len(piece), room, len(room), out))
            records.append(bytes(room[: out[1]]))
            at += out[0]
        self._rest = lead[at:]
        return b"".join(records)

    def end(self):
        """The records of the lead's end: that of a contact which it cuts, and that of the last position."""
        records, room, out = b"", (ctypes.c_uint8 * 16)(), (_u64 * 1)()
        while _given(_library.atc2_record_end(self._ear, room, len(room), out)) == 0 and out[0] > 0:
            records += bytes(room[: out[0]])
        return records

    def __bytes__(self):
        return bytes(self._ear)
