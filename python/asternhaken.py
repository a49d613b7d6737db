"""Asternhaken from Python: notifications of group calls (VGCS, VBS) in a GSM cell, read and followed.

One file over the shared library of the C interface, with nothing to install beside it:

    from asternhaken import Receiver, Refused, key

    yard, dispatcher = key(4711, vgcs=False), key(4711, vgcs=True)
    receiver = Receiver([yard, dispatcher], tick=1000, groups={yard: [3], dispatcher: [3, 4]})
    try:
        answer = receiver.nch(1480, bytes.fromhex("b00024cea3852091922b2b2b2b2b2b2b2b2b2b2b"))
    except Refused as refused:
        print(refused.number, refused)          # the receiver is as it was
    else:
        for entry in answer.entries:
            print(entry.reference, entry.vgcs, entry.told_word, entry.record and entry.record.channel, entry.follow_word, entry.kept_count)

Setup. Receiver(keys, tick, t3206, t3208, t3210, groups) sets a receiver up, and receiver.setup(..) does so anew. The keys may come in any order: the library takes them in
rising order only, and this module sorts them; a key twice is refused (10). groups says which group keys are held: for a key their numbers, 1 to 15 ({key: [3, 4]}). A key that it
does not name has none, and what it says of other keys than these is not looked at, so that one table may serve every receiver. The state is a bytearray of the receiver's own, and
receivers are independent of each other. Calls on one receiver must not run at the same time.

Events. nch, facch, pch, joined, reselected, handed_over, reconfigured, left_idle, bit_22 and tick each take the tick (a millisecond counter of 32 bits that wraps) and what
belongs to the event, and answer with an Answer: how many halves ran out, how many the event dropped, its entries, and who is paged. receiver.answer is the answer to the last
accepted event. An entry told 1 to 3 carries a record, with a number for each part of the header's enum asternhaken_part; the others have None. An entry told 2 or 3, which is
ciphered, says in follow whether the call can be followed (FOLLOW_NO_KEY, FOLLOW_NO_COUNT or FOLLOW_WITH_COUNT, then with kept_count); beside the others both are 0. What came on the
paging channel is a PchEntry: its key, and by name those of the other numbers that are not 0. A FACCH message that pages a mobile station has no entries; answer.paged is then a Paged with
the octets of its identity, what it is paged for and the channel, and None after every other event.

What is held. receiver.held is a tuple of the halves that wait for their other half, each with its key, what it came on, which half it is, how many ms it has left from
the last accepted event, and its record; receiver.next_expiry is the least of those times, or None.

The uplink. Uplink(tick, t3128) follows the uplink of one call, for a driver who wants to talk, apart from every receiver. free and busy say what the network said, request that the
driver wants to talk, and tick that time passed; each takes the tick and answers with an UplinkAnswer: in ended what became of the request that waited (UPLINK_NOTHING, UPLINK_GRANTED or
UPLINK_REJECTED), in told what a new one is told (UPLINK_NOTHING, UPLINK_GRANTED, UPLINK_WAITING or UPLINK_ALREADY_WAITING).

A yard set. YardSet(keys, tick, ..) is a set that only listens, for at most eight VBS keys: it takes nch, joined, reselected, bit_22 and tick as a receiver does and refuses the other events (19), and
yard_set.shown is a tuple of its current calls by rising key, each an entry with its age in ms at the last accepted event.

Saved states. receiver.state is a copy of the octets, and Receiver.from_state goes on from one; is_set_up says whether a setup of this version left it. A yard set
has the same, and an uplink has state and Uplink.from_state too.

Refusals. What the library refuses raises Refused, with the number, its word, and its sentence as text; nothing has changed then, the clock included. An
exception, since an answer that is not there cannot then be taken for an empty one.

Numbers. A tick, key, timer or bit 22 outside 32 bits, a group key's number outside 0 to 31, or a number of a PCH entry outside 64 bits, is a ValueError before the library is called,
since C would cut it off.

The library is the file that ASTERNHAKEN_LIBRARY names, else the one in ../../lib beside which this file was installed, else the one that the system finds.
"""
import collections
import ctypes
import os

# ---- The library ----

# Octets of the three states, and the parts of an answer in their order: the header's, which the tests hold equal.
STATE_LENGTH = 10256
UPLINK_LENGTH = 16
UPLINK_FREE = 480
KEYS = 50
LAST_GROUP_KEY = 15
YARD_LENGTH = 10896
YARD_KEYS = 8
YARD_SHOWN = 30000
T3206 = 10000
T3208 = 5000
T3210 = 5000
PARTS = (
    "expired", "dropped", "entry_count", "key", "told", "call_reference", "channel", "frequencies", "vstk_rand", "full", "vgcs", "acknowledged", "channel_given",
    "hops", "short_list", "segment_given", "segment_id", "rand_given", "emergency", "count_given", "b22_count", "uplink_given", "uplink_access", "amr_given", "fr_amr_given",
    "hr_amr_given", "sms_given", "sms_confidentiality", "sms_privacy", "priority", "cipher_key_number", "allocation_octets", "cell_global_count", "fr_amr_config",
    "hr_amr_config", "follow", "kept_count", "paged", "identity_octets", "identity_first", "identity_rest", "channel_first", "emlpp_priority_given", "emlpp_priority",
    "paging_cause_given", "paging_cause",
)

# The refusal numbers.
(ACCEPTED, REFUSED_MESSAGE_LENGTH, REFUSED_RAN_OUT, REFUSED_ALLOCATION_LENGTH, REFUSED_REFERENCE, REFUSED_HOPPING, REFUSED_RANDOM_ENTRIES, REFUSED_EMERGENCY_MARKS,
 REFUSED_IDENTITY_LENGTH, REFUSED_CLOCK, REFUSED_SETUP, REFUSED_FORM_SIZE, REFUSED_RANGE, REFUSED_LENGTH, REFUSED_RAN_OUT_6, REFUSED_RAN_OUT_7) = range(16)
REFUSED_NOT_FOR_YARD = 19

# The told numbers; 1 to 3 are complete and carry a record.
(TOLD_NOT_OURS, TOLD_CLEAR, TOLD_ONE_PIECE, TOLD_JOINED, TOLD_HALF_STORED, TOLD_HALF_HELD, TOLD_NO_CHANNEL, TOLD_UNUSABLE, TOLD_SECOND_BEFORE_FIRST) = range(9)

# Whether a complete ciphered call can be followed.
FOLLOW_NOT_SAID, FOLLOW_NO_KEY, FOLLOW_NO_COUNT, FOLLOW_WITH_COUNT = range(4)

# Of a page: the kinds of mobile identity, the channel wanted first, and what it is for.
IDENTITY_NONE, IDENTITY_IMSI, IDENTITY_IMEI, IDENTITY_IMEISV, IDENTITY_TMSI = range(5)
CHANNEL_FIRST_ANY, CHANNEL_FIRST_SDCCH, CHANNEL_FIRST_TCH_F, CHANNEL_FIRST_TCH_H_OR_F = range(4)
PAGED_FOR_CALL, PAGED_FOR_SHORT_MESSAGE = range(2)

# What became of a request for the uplink.
UPLINK_NOTHING, UPLINK_GRANTED, UPLINK_REJECTED, UPLINK_WAITING, UPLINK_ALREADY_WAITING = range(5)

# What a half came on, and which it is.
ON_NCH, ON_FACCH, ON_PCH = range(3)
FIRST_HALF, SECOND_HALF = 1, 2

_SONAME = "libasternhaken.so.0"
_OCTETS = ctypes.POINTER(ctypes.c_uint8)
_SIZE = ctypes.c_size_t
_U32 = ctypes.c_uint32
_NUMBERS = ctypes.POINTER(ctypes.c_uint64)
_NEVER = 4294967295


def _load():
    named = os.environ.get("ASTERNHAKEN_LIBRARY")
    beside = os.path.join(os.path.dirname(os.path.abspath(__file__)), "..", "..", "lib", _SONAME)
    library = ctypes.CDLL(named or (beside if os.path.exists(beside) else _SONAME))
    message = [_OCTETS, _SIZE, _U32, _OCTETS, _SIZE]
    plain = [_OCTETS, _SIZE, _U32]
    changes = {
        "setup": [_OCTETS, _SIZE, ctypes.POINTER(_U32), _SIZE, ctypes.POINTER(_U32), _SIZE, _U32, _U32, _U32, _U32],
        "nch": message, "facch": message, "pch": plain + [_NUMBERS, _SIZE], "joined": plain + [_U32],
        "reselected": plain, "handed_over": plain, "reconfigured": plain, "left_idle": plain, "bit_22": plain + [_U32], "tick": plain,
    }
    for name, words in {
        **changes, **{"yard_" + name: words for name, words in changes.items()},
        "read": plain + [_U32, _NUMBERS], "entry_numbers": plain + [_NUMBERS, _SIZE], "paged_numbers": [_OCTETS, _SIZE, _NUMBERS, _SIZE],
        "held_count": [_OCTETS, _SIZE, _NUMBERS], "held_numbers": plain + [_NUMBERS, _SIZE], "next_expiry": [_OCTETS, _SIZE, _NUMBERS],
        "yard_count": [_OCTETS, _SIZE, _NUMBERS], "yard_call_numbers": plain + [_NUMBERS, _SIZE], "is_set_up": [_OCTETS, _SIZE], "version": [],
        "uplink_setup": plain + [_U32], "uplink_free": plain, "uplink_busy": plain, "uplink_request": plain, "uplink_tick": plain,
    }.items():
        function = getattr(library, "asternhaken_" + name)
        function.argtypes, function.restype = words, _U32
    for name, number in {"refusal": _U32, "told": ctypes.c_uint64, "follow": ctypes.c_uint64, "uplink": _U32}.items():
        for text in "word", "sentence":
            function = getattr(library, "asternhaken_%s_%s" % (name, text))
            function.argtypes, function.restype = [number], ctypes.c_char_p
    for name in "identity", "channel_first", "paging_cause":
        function = getattr(library, "asternhaken_%s_word" % name)
        function.argtypes, function.restype = [ctypes.c_uint64], ctypes.c_char_p
    return library


_library = _load()

_number = _library.asternhaken_version()
__version__ = "%d.%d.%d" % (_number // 10000, _number // 100 % 100, _number % 100)

# ---- Words ----


def refusal_word(number):
    """A short word for a refusal number."""
    return _library.asternhaken_refusal_word(_u32(number, "a refusal")).decode()


def refusal_sentence(number):
    """A sentence for a refusal number."""
    return _library.asternhaken_refusal_sentence(_u32(number, "a refusal")).decode()


def told_word(number):
    """A short word for a told number."""
    return _library.asternhaken_told_word(_u32(number, "a told number")).decode()


def told_sentence(number):
    """A sentence for a told number."""
    return _library.asternhaken_told_sentence(_u32(number, "a told number")).decode()


def follow_word(number):
    """A short word for a number that says whether a call can be followed."""
    return _library.asternhaken_follow_word(_u32(number, "a number of following")).decode()


def follow_sentence(number):
    """A sentence for a number that says whether a call can be followed."""
    return _library.asternhaken_follow_sentence(_u32(number, "a number of following")).decode()


def identity_word(number):
    """A short word for a kind of mobile identity."""
    return _library.asternhaken_identity_word(_u32(number, "a kind of identity")).decode()


def channel_first_word(number):
    """A short word for the channel that a page wants first."""
    return _library.asternhaken_channel_first_word(_u32(number, "a channel first")).decode()


def paging_cause_word(number):
    """A short word for what a mobile station is paged for."""
    return _library.asternhaken_paging_cause_word(_u32(number, "a paging cause")).decode()


def uplink_word(number):
    """A short word for a number that says what became of a request for the uplink."""
    return _library.asternhaken_uplink_word(_u32(number, "a number of the uplink")).decode()


def uplink_sentence(number):
    """A sentence for a number that says what became of a request for the uplink."""
    return _library.asternhaken_uplink_sentence(_u32(number, "a number of the uplink")).decode()


def key(reference, vgcs):
    """A subscription's key: the reference times 2, and 1 more for VGCS."""
    return reference * 2 + (1 if vgcs else 0)


def _bits(number, what, bits):
    if not 0 <= number < 1 << bits:
        raise ValueError("%s is %r, and not a number of %d bits" % (what, number, bits))
    return number


def _u32(number, what):
    return _bits(number, what, 32)


def _set(numbers):
    """A set of group keys, with bit n for the key of number n. What is not 1 to 15 but has a bit, the library refuses."""
    group = 0
    for number in numbers:
        if not 0 <= number < 32:
            raise ValueError("a group key's number is %r, and not 1 to %d" % (number, LAST_GROUP_KEY))
        group |= 1 << number
    return group


# ---- Answers ----


class Refused(Exception):
    """The library refused a call. number is the ground's, word its short word; as text it is the sentence. bit: where bits ran out (2, 14, 15), the number of the
    bit at which the missing field begins, else 0."""

    def __init__(self, result):
        self.number = result & 255
        self.bit = result >> 8
        self.word = refusal_word(self.number)
        super().__init__(refusal_sentence(self.number))


# The record of a complete call, or of a half: a number for each part from call_reference to hr_amr_config. What is not there is 0.
Record = collections.namedtuple("Record", PARTS[PARTS.index("call_reference"):PARTS.index("follow")])


class _Keyed:
    """What has a key."""

    __slots__ = ()

    @property
    def reference(self):
        return self.key // 2

    @property
    def vgcs(self):
        """True for VGCS, False for VBS."""
        return self.key % 2 == 1


class _Told(_Keyed):
    """What was told, and may be followed."""

    __slots__ = ()

    @property
    def told_word(self):
        return told_word(self.told)

    @property
    def told_sentence(self):
        return told_sentence(self.told)

    @property
    def follow_word(self):
        return follow_word(self.follow)

    @property
    def follow_sentence(self):
        return follow_sentence(self.follow)


class Entry(_Told, collections.namedtuple("Entry", "key told record follow kept_count")):
    """What one entry of a message is told: its key, the told number, and the record where that is 1 to 3, else None; where it is 2 or 3, whether the call can be followed, and
    beside FOLLOW_WITH_COUNT the count that is kept of the cell, else 0."""

    __slots__ = ()


class YardCall(_Told, collections.namedtuple("YardCall", "key told record follow kept_count age")):
    """A call that a yard set shows: the entry that it was last told complete with, and how many ms before the last accepted event."""

    __slots__ = ()


class Paged(collections.namedtuple("Paged", "identity channel_first emlpp_priority paging_cause")):
    """Who is paged: the octets of the mobile identity, the channel wanted first, and the eMLPP priority and the Paging Cause, each None where it is not there."""

    __slots__ = ()

    @property
    def identity_kind(self):
        """IDENTITY_TMSI or another: the low three bits of the first octet."""
        return self.identity[0] & 7 if self.identity else IDENTITY_NONE

    @property
    def identity_word(self):
        return identity_word(self.identity_kind)

    @property
    def channel_first_word(self):
        return channel_first_word(self.channel_first)

    @property
    def paging_cause_word(self):
        """What for; without a Paging Cause, a mobile terminating call is assumed."""
        return paging_cause_word(self.paging_cause or PAGED_FOR_CALL)


class Answer(collections.namedtuple("Answer", "expired dropped entries paged")):
    """The answer to an event: halves that ran out at it, halves that it dropped itself, a tuple of entries, and who is paged, a Paged or None."""

    __slots__ = ()


class UplinkAnswer(collections.namedtuple("UplinkAnswer", "ended told")):
    """The answer to an event of an uplink: what became of the request that waited, and what a new one is told."""

    __slots__ = ()

    @property
    def ended_word(self):
        return uplink_word(self.ended)

    @property
    def told_word(self):
        return uplink_word(self.told)


class Held(_Keyed, collections.namedtuple("Held", "key on half ms_left record")):
    """A half that is held: ON_NCH, ON_FACCH or ON_PCH, then FIRST_HALF or SECOND_HALF, and for how many ms more from the last accepted event."""

    __slots__ = ()


# A notification on the paging channel, in the order of the header's enum asternhaken_pch_number. What is not given is 0: not there.
PchEntry = collections.namedtuple(
    "PchEntry", "key ciphered reference_given reference channel_given channel hops short_list allocation_octets frequencies rand_given vstk_rand count_given cell_global_count")
PchEntry.__new__.__defaults__ = (0,) * 13


# ---- States ----


class _Lent:
    """What has a state of its own, which it lends to the library. _LENGTH is how many octets that has."""

    def _take(self, octets):
        self._state = octets
        self._lent = (ctypes.c_uint8 * self._LENGTH).from_buffer(octets)

    @classmethod
    def from_state(cls, octets):
        """One that goes on from a saved state. Other octets are answered too, as docs/STATE.md says (a receiver's is_set_up tells them); another length is refused, 13."""
        if len(octets) != cls._LENGTH:
            raise Refused(REFUSED_LENGTH)
        lent = cls.__new__(cls)
        lent._take(bytearray(octets))
        return lent

    @property
    def state(self):
        """A copy of the state's octets, to be saved or sent; from_state goes on from it."""
        return bytes(self._state)


# ---- The receiver ----


class Receiver(_Lent):
    """A receiver in a state of its own. Every method but answer and state raises Refused where the library refuses."""

    # The length of the state, and what stands before the names of the functions that take a setup and events.
    _LENGTH = STATE_LENGTH
    _PREFIX = "asternhaken_"

    def __init__(self, keys, tick, t3206=T3206, t3208=T3208, t3210=T3210, groups=None):
        self._take(bytearray(self._LENGTH))
        self.setup(keys, tick, t3206, t3208, t3210, groups)

    def _call(self, function, *words, length=STATE_LENGTH):
        result = function(self._lent, length, *words)
        if result:
            raise Refused(result)

    def _change(self, name, *words):
        self._call(getattr(_library, self._PREFIX + name), *words, length=self._LENGTH)

    @property
    def is_set_up(self):
        """Whether the state has the mark of an accepted setup of this layout."""
        return _library.asternhaken_is_set_up(self._lent, STATE_LENGTH) == 1

    def setup(self, keys, tick, t3206=T3206, t3208=T3208, t3210=T3210, groups=None):
        """Makes this a receiver that holds nothing, with these subscriptions, in any order; refused (10), it stays as it was. groups has for a key the numbers of the group keys that
        are held, {key: [3, 4]}."""
        keys = sorted(_u32(k, "a key") for k in keys)
        sets = [_set((groups or {}).get(k, ())) for k in keys]
        room = _U32 * max(1, len(keys))  # no pointer may be null
        timers = _u32(t3206, "T3206"), _u32(t3208, "T3208"), _u32(t3210, "T3210")
        self._change("setup", room(*keys), len(keys), room(*sets), len(sets), _u32(tick, "the tick"), *timers)

    def _event(self, name, tick, *words):
        self._change(name, _u32(tick, "the tick"), *words)
        return self.answer

    def _message(self, name, tick, octets):
        octets = bytes(octets)
        return self._event(name, tick, (ctypes.c_uint8 * max(1, len(octets)))(*octets), len(octets))

    def nch(self, tick, octets):
        """NT/N Rest Octets came."""
        return self._message("nch", tick, octets)

    def facch(self, tick, octets):
        """A NOTIFICATION/FACCH came."""
        return self._message("facch", tick, octets)

    def pch(self, tick, entry):
        """A notification came on the paging channel: a PchEntry, or its numbers in that order."""
        numbers = [_bits(int(number), "a number of the entry", 64) for number in entry]
        return self._event("pch", tick, (ctypes.c_uint64 * max(1, len(numbers)))(*numbers), len(numbers))

    def joined(self, tick, key):
        """The call of this key was joined."""
        return self._event("joined", tick, _u32(key, "the key"))

    def reselected(self, tick):
        """Another cell was selected: its count and bit 22 are not known."""
        return self._event("reselected", tick)

    def handed_over(self, tick):
        """The mobile was handed over to another cell: its count and bit 22 are not known."""
        return self._event("handed_over", tick)

    def reconfigured(self, tick):
        return self._event("reconfigured", tick)

    def left_idle(self, tick):
        """Idle mode was left."""
        return self._event("left_idle", tick)

    def bit_22(self, tick, value):
        """Bit 22 of COUNT has this value now, 0 or 1: from 1 to 0 the count that is kept of the cell is raised by one, modulo 4."""
        return self._event("bit_22", tick, _u32(value, "bit 22"))

    def tick(self, tick):
        """Time passed."""
        return self._event("tick", tick)

    def _number(self, function, *words, length=STATE_LENGTH):
        """One number, which a function of the library writes behind these words."""
        value = ctypes.c_uint64()
        self._call(function, *words, ctypes.byref(value), length=length)
        return value.value

    def _numbers(self, function, i, leading, behind, length=STATE_LENGTH):
        """The i-th of something: so many numbers that lead it, a record, and so many behind."""
        n = leading + len(Record._fields) + behind
        numbers = (ctypes.c_uint64 * n)()
        self._call(function, i, numbers, n, length=length)
        return numbers[:leading], Record(*numbers[leading:n - behind]), numbers[n - behind:]

    def _part(self, part):
        return self._number(_library.asternhaken_read, 0, PARTS.index(part))

    def _entry(self, i):
        (key, told), record, (follow, kept_count) = self._numbers(_library.asternhaken_entry_numbers, i, 2, 2)
        return Entry(key, told, record if TOLD_CLEAR <= told <= TOLD_JOINED else None, follow, kept_count)

    def _paged(self):
        n = len(PARTS) - PARTS.index("paged")
        numbers = (ctypes.c_uint64 * n)()
        self._call(_library.asternhaken_paged_numbers, numbers, n)
        there, octets, first, rest, channel_first, priority_given, priority, cause_given, cause = numbers
        if not there:
            return None
        identity = bytes([first]) + rest.to_bytes(8, "big")[max(0, 9 - octets):]  # other octets than a receiver's may say any length
        return Paged(identity if octets else b"", channel_first, priority if priority_given else None, cause if cause_given else None)

    @property
    def answer(self):
        """The answer to the last accepted event; after a setup it is empty."""
        return Answer(self._part("expired"), self._part("dropped"), tuple(self._entry(i) for i in range(self._part("entry_count"))), self._paged())

    def _held(self, i):
        leading, record, _ = self._numbers(_library.asternhaken_held_numbers, i, 4, 0)
        return Held(*leading, record)

    @property
    def held(self):
        """The halves that are held, by their keys in rising order, and for each on the NCH, the FACCH, the PCH."""
        return tuple(self._held(i) for i in range(self._number(_library.asternhaken_held_count)))

    @property
    def next_expiry(self):
        """In how many ms from the last accepted event the next half runs out; None where none is held."""
        ms = self._number(_library.asternhaken_next_expiry)
        return None if ms == _NEVER else ms


# ---- The uplink ----


class Uplink(_Lent):
    """The uplink of one call, in a state of its own: may our driver talk? Every method raises Refused where the library refuses."""

    _LENGTH = UPLINK_LENGTH

    def __init__(self, tick, t3128):
        self._take(bytearray(UPLINK_LENGTH))
        self.setup(tick, t3128)

    def _event(self, function, tick, *words):
        result = function(self._lent, UPLINK_LENGTH, _u32(tick, "the tick"), *words)
        if result & 255:
            raise Refused(result)
        return UplinkAnswer(result >> 8 & 255, result >> 16 & 255)

    def setup(self, tick, t3128):
        """Makes this an uplink that is not free and that nobody waits for; T3128 is 1 to 60,000 ms. Refused (10), it stays as it was."""
        self._event(_library.asternhaken_uplink_setup, tick, _u32(t3128, "T3128"))

    def free(self, tick):
        """A message came that says that the uplink is free."""
        return self._event(_library.asternhaken_uplink_free, tick)

    def busy(self, tick):
        """A message came that says that the uplink is busy."""
        return self._event(_library.asternhaken_uplink_busy, tick)

    def request(self, tick):
        """The driver wants to talk."""
        return self._event(_library.asternhaken_uplink_request, tick)

    def tick(self, tick):
        """Time passed."""
        return self._event(_library.asternhaken_uplink_tick, tick)


# ---- The yard set ----


class YardSet(Receiver):
    """A set that only listens: a receiver for at most eight VBS keys, and above it one current call for each. facch, pch, handed_over, reconfigured and left_idle are refused, 19."""

    _LENGTH = YARD_LENGTH
    _PREFIX = "asternhaken_yard_"

    def _shown(self, i):
        (key, told), record, behind = self._numbers(_library.asternhaken_yard_call_numbers, i, 2, 3, length=YARD_LENGTH)
        return YardCall(key, told, record, *behind)

    @property
    def shown(self):
        """The current calls, by rising key."""
        return tuple(self._shown(i) for i in range(self._number(_library.asternhaken_yard_count, length=YARD_LENGTH)))
