"""The Python module against the header and known answers: tests/receiver.py HEADER, with the module on PYTHONPATH. tests/install.sh runs it."""
import re
import sys
import unittest

import asternhaken
from asternhaken import Held, Paged, PchEntry, Receiver, Refused, Uplink, UplinkAnswer, YardSet, key

HEADER = open(sys.argv.pop(1)).read()
YARD, DISPATCHER = key(4711, False), key(4711, True)
FIRST = bytes.fromhex("b00024cea38520919a8b2b2b2b2b2b2b2b2b2b2b")  # of the yard: channel 0a4123, count 1
SECOND = bytes.fromhex("b00024cea30712345678932b2b2b2b2b2b2b2b2b")  # VSTK_RAND 123456789
PIECE = bytes.fromhex("b00024cea385209192800000000b2b2b2b2b2b2b")  # of the yard, in one piece, without a count; its key number is 3
FACCH_FIRST = bytes.fromhex("040001267aa56e11592b")  # of the dispatcher: channel 5b8456
FACCH_PIECE = bytes.fromhex("040001267aa56e1158daaaaaaaaaab2b")  # of the dispatcher, in one piece, count 2, whose B22 was 1; its key number is 4
PAGE_TMSI = bytes.fromhex("0482fa091a2b3c572b")  # of the TMSI 12345678: for a TCH/F, priority 3
PAGE_IMSI = bytes.fromhex("048414930810a1b2c3848fab")  # of the IMSI 262011234567890: for any channel, with a cause that is 0
PAGE_WHOLE = bytes.fromhex("048499ab80810182028303fed891a2b3c4df2b2b2b2b2b")  # of an IMEISV: every part there is, count 2, whose B22 was 1
PCH_FIRST = PchEntry(YARD, ciphered=1, reference_given=1, reference=YARD << 8 | 0xA3, channel_given=1, channel=0x0A4123, count_given=1, cell_global_count=1)
PCH_SECOND = PchEntry(YARD, ciphered=1, rand_given=1, vstk_rand=0x987654321)


def only(key, told):
    """An entry that is told a number alone."""
    return key, told, None, 0, 0


def lost(expired, dropped):
    """An answer with no entries, and nobody paged."""
    return expired, dropped, (), None


def constants(enum):
    """The names of an enum of the header in the order of their numbers, without ASTERNHAKEN_."""
    body = re.search(r"enum asternhaken_%s \{(.*?)\};" % enum, HEADER, re.S)[1]
    rows = re.findall(r"ASTERNHAKEN_(\w+) = (\d+)", body)
    assert rows
    return {name: int(n) for name, n in rows}


def in_order(enum, prefix):
    """The names of an enum whose numbers begin at 0 and leave none out, without the prefix, in small letters."""
    rows = constants(enum)
    assert list(rows.values()) == list(range(len(rows))) and all(name.startswith(prefix) for name in rows)
    return tuple(name[len(prefix):].lower() for name in rows)


def members(struct):
    """The names of a struct's members of the header, in their order."""
    body = re.sub(r"/\*.*?\*/", "", re.search(r"struct asternhaken_%s \{(.*?)\n\};" % struct, HEADER, re.S)[1], flags=re.S)
    return tuple(re.findall(r"(\w+)\s*[,;]", body))


def defined(name):
    return int(re.search(r"#define ASTERNHAKEN_%s (\d+)" % name, HEADER)[1])


class TheHeader(unittest.TestCase):
    def test_parts(self):
        self.assertEqual(asternhaken.PARTS, in_order("part", "PART_"))
        self.assertEqual(len(asternhaken.PARTS), defined("PARTS"))

    def test_structs(self):
        self.assertEqual(asternhaken.Record._fields, members("record"))
        self.assertEqual(asternhaken.PARTS[5:35], members("record"))
        self.assertEqual(asternhaken.PARTS[3:5] + ("record",) + asternhaken.PARTS[35:37], members("entry"))
        self.assertEqual(asternhaken.PARTS[37:], members("paged")[:1] + members("page") + members("paged")[2:])
        self.assertEqual(members("paged")[1], "page")
        self.assertEqual((len(members("page")), len(asternhaken.PARTS[37:])), (defined("PAGE_NUMBERS"), defined("PAGED_NUMBERS")))
        self.assertEqual(asternhaken.PARTS[:3], members("answer"))
        self.assertEqual(asternhaken.Entry._fields, members("entry"))
        self.assertEqual(asternhaken.Held._fields, members("held"))
        self.assertEqual(asternhaken.YardCall._fields, members("yard_call"))
        self.assertEqual(len(asternhaken.YardCall._fields) - 1 + len(members("record")), defined("YARD_CALL_NUMBERS"))
        self.assertEqual(asternhaken.PchEntry._fields, members("pch_entry"))
        self.assertEqual(asternhaken.PchEntry._fields, in_order("pch_number", "PCH_"))
        self.assertEqual(len(asternhaken.PchEntry._fields), defined("PCH_NUMBERS"))

    def test_constants(self):
        for enum, least in (("refusal", 14), ("told", 9), ("follow", 4), ("uplink", 5), ("on", 3), ("half", 2), ("identity", 5), ("channel_first", 4), ("paging_cause", 2)):
            rows = constants(enum)
            self.assertGreaterEqual(len(rows), least)
            for name, number in rows.items():
                self.assertEqual(getattr(asternhaken, name), number)

    def test_numbers(self):
        for name in ("STATE_LENGTH", "KEYS", "LAST_GROUP_KEY", "T3206", "T3208", "T3210", "UPLINK_LENGTH", "UPLINK_FREE", "YARD_LENGTH", "YARD_KEYS", "YARD_SHOWN"):
            self.assertEqual(getattr(asternhaken, name), defined(name))
        self.assertEqual(asternhaken._NEVER, defined("NEVER"))

    def test_version(self):
        self.assertEqual(asternhaken.__version__, "%d.%d.%d" % tuple(defined("VERSION_" + part) for part in ("MAJOR", "MINOR", "PATCH")))

    def test_words(self):
        for enum, word, sentence in (("refusal", asternhaken.refusal_word, asternhaken.refusal_sentence), ("told", asternhaken.told_word, asternhaken.told_sentence),
                                     ("follow", asternhaken.follow_word, asternhaken.follow_sentence), ("uplink", asternhaken.uplink_word, asternhaken.uplink_sentence)):
            known = set(constants(enum).values())
            n = max(known) + 1
            for say in (word, sentence):
                self.assertEqual(len({say(i) for i in known | {n}}), len(known) + 1)
                self.assertEqual({say(i) for i in {255, 1 << 31, (1 << 32) - 1} | set(range(n + 1)) - known}, {say(n)})
            self.assertEqual(word(n), "unknown")
            for i in range(n + 1):
                self.assertRegex(sentence(i), r"^[A-Z].* .*\.$")
        for enum, word in (("identity", asternhaken.identity_word), ("channel_first", asternhaken.channel_first_word), ("paging_cause", asternhaken.paging_cause_word)):
            n = len(constants(enum))
            self.assertEqual(len({word(i) for i in range(n + 1)}), n + 1)
            self.assertEqual({word(i) for i in (n, 255, (1 << 32) - 1)}, {"unknown"})


class TheReceiver(unittest.TestCase):
    def setUp(self):
        self.receiver = Receiver([YARD, DISPATCHER], tick=1000, groups={YARD: [3, 15], DISPATCHER: (1,), 7: [99]})

    def refused(self, number, call, *words):
        before = self.receiver.state
        with self.assertRaises(Refused) as caught:
            call(*words)
        self.assertEqual(caught.exception.number, number)
        self.assertEqual(str(caught.exception), asternhaken.refusal_sentence(number))
        self.assertEqual(caught.exception.word, asternhaken.refusal_word(number))
        self.assertEqual(self.receiver.state, before)

    def test_two_halves(self):
        self.assertEqual(self.receiver.answer, lost(0, 0))
        answer = self.receiver.nch(1480, FIRST)
        self.assertEqual(answer, (0, 0, (only(YARD, asternhaken.TOLD_HALF_STORED),), None))
        entry = self.receiver.nch(1960, SECOND).entries[0]
        self.assertEqual((entry.key, entry.reference, entry.vgcs, entry.told, entry.told_word), (YARD, 4711, False, asternhaken.TOLD_JOINED, "complete, joined"))
        self.assertEqual(entry.told_sentence, asternhaken.told_sentence(3))
        there = {part: value for part, value in entry.record._asdict().items() if value}
        self.assertEqual(there, dict(
            call_reference=4711, channel=0x0A4123, vstk_rand=0x123456789, full=1, acknowledged=1, channel_given=1, segment_given=1, rand_given=1, count_given=1,
            cell_global_count=1, priority=2, cipher_key_number=3))
        self.assertEqual(self.receiver.answer.entries[0], entry)

    def test_every_event(self):
        self.receiver.nch(2000, FIRST)
        self.assertEqual(self.receiver.facch(2000, FACCH_FIRST).entries, (only(DISPATCHER, asternhaken.TOLD_HALF_STORED),))
        self.assertEqual(self.receiver.reselected(2001), lost(0, 1))
        self.assertEqual(self.receiver.handed_over(2002), lost(0, 1))
        self.receiver.facch(2003, FACCH_FIRST)
        self.assertEqual(self.receiver.reconfigured(2004), lost(0, 1))
        self.receiver.nch(2005, FIRST)
        self.assertEqual(self.receiver.joined(2006, YARD), lost(0, 0))
        self.assertEqual(self.receiver.joined(2007, DISPATCHER), lost(0, 1))
        self.receiver.nch(2008, FIRST)
        self.assertEqual(self.receiver.bit_22(2009, 1), lost(0, 0))
        self.assertEqual(self.receiver.tick(2008 + asternhaken.T3206), lost(1, 0))
        self.receiver.nch(13000, FIRST)
        self.assertEqual(self.receiver.bit_22(13000 + asternhaken.T3206, 0), lost(1, 0))

    def following(self, entry):
        self.assertEqual(entry.follow_sentence, asternhaken.follow_sentence(entry.follow))
        return entry.told, entry.follow_word, entry.kept_count

    def test_following(self):
        nch, facch = (lambda octets: self.following(self.receiver.nch(1000, octets).entries[0])), (lambda octets: self.following(self.receiver.facch(1000, octets).entries[0]))
        self.assertEqual(nch(PIECE), (2, "no count", 0))
        self.assertEqual(facch(FACCH_PIECE), (2, "no key", 0))
        self.assertEqual(nch(FIRST), (4, "not said", 0))
        self.assertEqual(nch(SECOND), (3, "follow", 1))
        for value in 0, 1, 0:
            self.receiver.bit_22(1000, value)
        entry = self.receiver.nch(1000, PIECE).entries[0]
        self.assertEqual((entry.follow, entry.kept_count, entry.record.count_given), (asternhaken.FOLLOW_WITH_COUNT, 2, 0))
        self.receiver.setup([DISPATCHER, YARD], 1000, groups={DISPATCHER: {4, 5}})
        self.assertEqual(nch(PIECE), (2, "no key", 0))
        self.assertEqual(facch(FACCH_PIECE), (2, "no count", 0))
        self.receiver.bit_22(1000, 0)
        self.assertEqual(facch(FACCH_PIECE), (2, "follow", 3))
        for leave in self.receiver.reselected, self.receiver.handed_over:
            self.receiver.pch(1000, PCH_FIRST)
            leave(1000)
            self.assertEqual(facch(FACCH_PIECE), (2, "no count", 0))
        self.refused(12, self.receiver.bit_22, 1000, 2)
        self.refused(9, self.receiver.bit_22, 999, 2)

    def test_paging_channel(self):
        now = 2000
        self.assertEqual(self.receiver.pch(now, PCH_SECOND).entries, (only(YARD, asternhaken.TOLD_HALF_STORED),))
        record = self.receiver.pch(now, PCH_FIRST).entries[0].record
        self.assertEqual((record.channel, record.vstk_rand, record.full, record.cell_global_count), (0x0A4123, 0x987654321, 1, 1))
        self.receiver.pch(now, list(PCH_FIRST))
        self.assertEqual(self.receiver.left_idle(now), lost(0, 1))
        self.receiver.pch(now, PCH_FIRST)
        self.assertEqual(self.receiver.pch(now, PchEntry(1630)), (0, 1, (only(1630, asternhaken.TOLD_NOT_OURS),), None))
        self.receiver.pch(now, PCH_FIRST)
        self.assertEqual(self.receiver.tick(now + asternhaken.T3210 - 1), lost(0, 0))
        self.assertEqual(self.receiver.tick(now + asternhaken.T3210), lost(1, 0))
        self.refused(12, self.receiver.pch, 9000, PCH_FIRST._replace(ciphered=0))
        self.refused(4, self.receiver.pch, 9000, PchEntry(200000000))
        self.refused(13, self.receiver.pch, 9000, PCH_FIRST[:-1])
        self.refused(13, self.receiver.pch, 9000, ())
        self.refused(9, self.receiver.pch, 1999, PCH_FIRST)
        self.refused(9, self.receiver.left_idle, 1999)

    def test_pages(self):
        self.receiver.nch(2000, FIRST)
        answer = self.receiver.facch(2001, PAGE_TMSI)
        self.assertEqual(answer, (0, 0, (), (bytes.fromhex("f412345678"), asternhaken.CHANNEL_FIRST_TCH_F, 3, None)))
        paged = answer.paged
        self.assertIsInstance(paged, Paged)
        self.assertEqual((paged.identity_kind, paged.identity_word, paged.channel_first_word), (asternhaken.IDENTITY_TMSI, "TMSI", "TCH/F"))
        self.assertEqual(paged.paging_cause_word, "mobile terminating call")  # assumed
        self.refused(8, self.receiver.facch, 2002, b"\4\205\0")
        self.refused(9, self.receiver.facch, 2000, PAGE_IMSI)
        self.assertEqual(self.receiver.answer.paged, paged)
        self.assertEqual(Receiver.from_state(self.receiver.state).answer, answer)
        paged = self.receiver.facch(2002, PAGE_IMSI).paged
        self.assertEqual(paged, (bytes.fromhex("2926102143658709"), asternhaken.CHANNEL_FIRST_ANY, None, asternhaken.PAGED_FOR_CALL))
        self.assertEqual((paged.identity_word, paged.channel_first_word, paged.paging_cause_word), ("IMSI", "any channel", "mobile terminating call"))
        paged = self.receiver.facch(2003, PAGE_WHOLE).paged
        self.assertEqual(paged, (bytes.fromhex("335701020304050607"), asternhaken.CHANNEL_FIRST_TCH_H_OR_F, 7, asternhaken.PAGED_FOR_SHORT_MESSAGE))
        self.assertEqual((paged.identity_word, paged.channel_first_word, paged.paging_cause_word), ("IMEISV", "TCH/H or TCH/F", "short message"))
        self.assertEqual(self.receiver.facch(2004, b"\377\200\372\53").paged, (b"\xf4", asternhaken.CHANNEL_FIRST_SDCCH, None, None))
        answer = self.receiver.nch(2005, SECOND)  # its half is held still; the FACCH's count is not taken, since the bit is not known
        self.assertEqual((answer.entries[0].told, answer.entries[0].kept_count, answer.paged), (asternhaken.TOLD_JOINED, 1, None))
        self.receiver.bit_22(2006, 0)
        self.receiver.facch(2007, PAGE_WHOLE)
        self.assertEqual(self.receiver.nch(2008, PIECE).entries[0].kept_count, 3)
        self.receiver.nch(3000, FIRST)
        self.assertEqual(self.receiver.facch(3000 + asternhaken.T3206, PAGE_TMSI)[:2], (1, 0))
        self.receiver.setup([YARD], 0)
        self.assertIsNone(self.receiver.answer.paged)

    def test_pages_that_no_message_has(self):
        state = bytearray(self.receiver.state)
        state[9592:9608] = bytes(range(1, 17))
        for octets, identity in (0, ""), (1, "03"), (2, "0309"), (9, "03100f0e0d0c0b0a09"), (10, "03100f0e0d0c0b0a09"), (255, "03100f0e0d0c0b0a09"):
            state[9593] = octets
            paged = Receiver.from_state(state).answer.paged
            self.assertEqual(paged, (bytes.fromhex(identity), 4, 6, 1))
            self.assertEqual((paged.identity_word, paged.channel_first_word), ("IMEISV" if octets else "no identity", "unknown"))

    def test_what_is_held(self):
        self.assertEqual((self.receiver.held, self.receiver.next_expiry), ((), None))
        self.receiver.nch(1000, FIRST)
        self.receiver.facch(1600, FACCH_FIRST)
        self.receiver.pch(2000, PCH_SECOND)
        held = self.receiver.held
        self.assertEqual([h[:4] for h in held], [
            (YARD, asternhaken.ON_NCH, asternhaken.FIRST_HALF, 9000), (YARD, asternhaken.ON_PCH, asternhaken.SECOND_HALF, 5000),
            (DISPATCHER, asternhaken.ON_FACCH, asternhaken.FIRST_HALF, 4600)])
        self.assertIsInstance(held[0], Held)
        self.assertEqual((held[0].reference, held[0].vgcs, held[2].vgcs), (4711, False, True))
        self.assertEqual((held[0].record.channel, held[1].record.vstk_rand, held[2].record.channel), (0x0A4123, 0x987654321, 0x5B8456))
        self.assertEqual(self.receiver.next_expiry, 4600)
        self.assertEqual(self.receiver.tick(2000 + 4600), lost(1, 0))
        self.assertEqual((len(self.receiver.held), self.receiver.next_expiry), (2, 400))

    def test_the_mark(self):
        self.assertTrue(self.receiver.is_set_up)
        self.assertFalse(Receiver.from_state(bytes(asternhaken.STATE_LENGTH)).is_set_up)
        state = bytearray(self.receiver.state)
        self.assertEqual(state[20:24], b"AHK\4")
        self.receiver.nch(2000, FIRST)
        self.assertTrue(Receiver.from_state(self.receiver.state).is_set_up)
        state[23] = 3  # another layout
        self.assertFalse(Receiver.from_state(state).is_set_up)

    def test_refusals(self):
        self.refused(1, self.receiver.nch, 1001, b"")
        self.refused(1, self.receiver.nch, 1001, FIRST[:19])
        self.refused(1, self.receiver.facch, 1001, bytes(24))
        self.refused(4, self.receiver.joined, 1001, 200000000)
        self.refused(8, self.receiver.facch, 1001, b"\4\200\0")
        self.refused(9, self.receiver.tick, 999)
        self.refused(9, self.receiver.nch, 999, b"")
        self.refused(10, self.receiver.setup, [YARD, YARD], 0)
        self.refused(10, self.receiver.setup, [YARD, DISPATCHER, YARD], 0)
        self.refused(10, self.receiver.setup, range(51), 0)
        self.refused(10, self.receiver.setup, [], 0, 0, 1, 1)
        self.refused(10, self.receiver.setup, [], 0, 1, 0, 1)
        self.refused(10, self.receiver.setup, [], 0, 1, 1, 0)
        self.refused(10, Receiver, [200000000], 0)
        for number in 0, 16, 31:
            self.refused(10, lambda: self.receiver.setup([YARD], 0, groups={YARD: [3, number]}))
        self.refused(13, Receiver.from_state, bytes(asternhaken.STATE_LENGTH - 1))
        self.refused(13, Receiver.from_state, bytes(10240))

    def test_setups(self):
        self.receiver.setup([], 5)
        self.receiver.setup(range(50), 5, 1, 60000, 60000)
        in_order = self.receiver.state
        self.receiver.setup(reversed(range(50)), 5, 1, 60000, 60000)  # the module sorts
        self.assertEqual(self.receiver.state, in_order)
        self.receiver.setup({YARD: "yard", 7: "seven"}, 5)
        self.assertEqual(self.receiver.nch(5, FIRST).entries, (only(YARD, asternhaken.TOLD_HALF_STORED),))
        self.receiver.setup(range(50), 5)
        self.assertEqual(self.receiver.nch(5, bearer(FIRST)).entries, (only(YARD, asternhaken.TOLD_NOT_OURS),))

    def test_numbers_that_c_would_cut(self):
        for call in (lambda: self.receiver.tick(1 << 32), lambda: self.receiver.tick(-1), lambda: self.receiver.joined(1001, YARD + (1 << 32)),
                     lambda: self.receiver.setup([YARD + (1 << 32)], 0), lambda: self.receiver.setup([], 1 << 32), lambda: self.receiver.setup([], 0, (1 << 32) + 5),
                     lambda: self.receiver.setup([], 0, 5, (1 << 32) + 5), lambda: self.receiver.setup([], 0, 5, 5, (1 << 32) + 5),
                     lambda: self.receiver.left_idle(1 << 32), lambda: self.receiver.bit_22(1 << 32, 1), lambda: self.receiver.bit_22(1001, 1 << 32), lambda: self.receiver.bit_22(1001, -1),
                     lambda: self.receiver.setup([YARD], 0, groups={YARD: [32]}), lambda: self.receiver.setup([YARD], 0, groups={YARD: [-1]}), lambda: self.receiver.pch(1 << 32, PCH_FIRST),
                     lambda: self.receiver.pch(1001, PCH_FIRST._replace(channel=1 << 64)), lambda: self.receiver.pch(1001, PCH_FIRST._replace(key=-1)),
                     lambda: asternhaken.refusal_word(1 << 32)):
            before = self.receiver.state
            self.assertRaises(ValueError, call)
            self.assertEqual(self.receiver.state, before)
        self.assertEqual(self.receiver.tick((1000 + (1 << 31) - 1)), lost(0, 0))

    def test_states(self):
        self.receiver.nch(1480, FIRST)
        other = Receiver.from_state(self.receiver.state)
        self.receiver.reselected(1500)
        self.assertEqual(other.nch(1960, SECOND).entries[0].told, asternhaken.TOLD_JOINED)
        self.assertEqual(self.receiver.nch(1960, SECOND).entries[0].told, asternhaken.TOLD_HALF_STORED)
        self.assertEqual(len(other.state), asternhaken.STATE_LENGTH)


class TheUplink(unittest.TestCase):
    def setUp(self):
        self.uplink = Uplink(tick=1000, t3128=100)

    def refused(self, number, call, *words):
        before = self.uplink.state
        with self.assertRaises(Refused) as caught:
            call(*words)
        self.assertEqual((caught.exception.number, caught.exception.bit), (number, 0))
        self.assertEqual(self.uplink.state, before)

    def test_requests(self):
        answer = self.uplink.request(1000)
        self.assertIsInstance(answer, UplinkAnswer)
        self.assertEqual((answer, answer.ended_word, answer.told_word), ((asternhaken.UPLINK_NOTHING, asternhaken.UPLINK_WAITING), "nothing", "waiting"))
        self.assertEqual(self.uplink.request(1050).told_word, "already waiting")
        self.assertEqual(self.uplink.free(1099), (asternhaken.UPLINK_GRANTED, asternhaken.UPLINK_NOTHING))
        self.assertEqual(self.uplink.request(1099 + asternhaken.UPLINK_FREE - 1), (asternhaken.UPLINK_NOTHING, asternhaken.UPLINK_GRANTED))
        self.assertEqual(self.uplink.busy(1600), (0, 0))
        self.assertEqual(self.uplink.request(1600).told, asternhaken.UPLINK_WAITING)
        self.assertEqual(self.uplink.tick(1699), (0, 0))
        self.assertEqual(self.uplink.request(1700), (asternhaken.UPLINK_REJECTED, asternhaken.UPLINK_WAITING))
        self.assertEqual(self.uplink.free(1800), (asternhaken.UPLINK_REJECTED, asternhaken.UPLINK_NOTHING))
        self.assertEqual(self.uplink.request(1800).told_word, "granted")

    def test_refusals(self):
        for happens in self.uplink.free, self.uplink.busy, self.uplink.request, self.uplink.tick:
            self.refused(9, happens, 999)
            self.assertRaises(ValueError, happens, 1 << 32)
        for t3128 in 0, 60001, 65537:
            self.refused(10, self.uplink.setup, 5, t3128)
            self.refused(10, Uplink, 5, t3128)
        self.assertRaises(ValueError, self.uplink.setup, 5, (1 << 32) + 5)
        self.refused(13, Uplink.from_state, bytes(asternhaken.UPLINK_LENGTH + 1))
        self.assertIsNone(self.uplink.setup(5, 60000))

    def test_states(self):
        self.uplink.request(1000)
        other = Uplink.from_state(self.uplink.state)
        self.assertEqual(self.uplink.tick(1100).ended_word, "rejected")
        self.assertEqual(other.free(1099).ended_word, "granted")


class TheYardSet(unittest.TestCase):
    HUMP = key(815, False)
    HUMP_CALL = bytes.fromhex("b000065e208520918b2b2b2b2b2b2b2b2b2b2b2b")  # not ciphered, channel 0a4123, NLN 1
    OTHER_NLN = bytes.fromhex("d00024ce13adc22b1ca468acf1342b2b2b2b2b2b")  # of the yard, in one piece, NLN 2, count 2; its key number is 3

    def setUp(self):
        self.yard = YardSet([YARD, self.HUMP], tick=1000, groups={YARD: [3]})

    def refused(self, number, call, *words):
        before = self.yard.state
        with self.assertRaises(Refused) as caught:
            call(*words)
        self.assertEqual((caught.exception.number, self.yard.state), (number, before))

    def shown(self):
        return [(call.key, call.told, call.record.channel, call.follow, call.kept_count, call.age) for call in self.yard.shown]

    def test_calls(self):
        self.assertEqual(self.shown(), [])
        self.yard.nch(2000, FIRST)
        self.assertEqual((self.shown(), len(self.yard.held)), ([], 1))
        self.assertEqual(self.yard.nch(2500, SECOND).entries[0].told, asternhaken.TOLD_JOINED)
        self.assertEqual(self.shown(), [(YARD, 3, 0x0A4123, asternhaken.FOLLOW_WITH_COUNT, 1, 0)])
        self.yard.bit_22(2600, 1)
        self.yard.bit_22(2700, 0)
        self.yard.joined(2800, self.HUMP)
        self.yard.nch(3000, self.HUMP_CALL)
        self.assertEqual(self.shown(), [(self.HUMP, 1, 0x0A4123, 0, 0, 0), (YARD, 3, 0x0A4123, 3, 1, 500)])
        self.assertEqual([(call.reference, call.vgcs, call.told_word, call.follow_word) for call in self.yard.shown],
                         [(815, False, "complete, clear", "not said"), (4711, False, "complete, joined", "follow")])
        self.yard.tick(2500 + asternhaken.YARD_SHOWN - 1)
        self.assertEqual(len(self.yard.shown), 2)
        self.yard.tick(2500 + asternhaken.YARD_SHOWN)
        self.assertEqual([call.key for call in self.yard.shown], [self.HUMP])
        self.yard.nch(32600, self.OTHER_NLN)
        self.assertEqual(self.shown(), [(YARD, 2, 0x5B8456, 3, 2, 0)])
        self.yard.reselected(32601)
        self.assertEqual(self.shown(), [])

    def test_refusals(self):
        self.yard.nch(2000, self.HUMP_CALL)
        for tick in 1999, 2000:
            for call, words in ((self.yard.facch, (PAGE_TMSI,)), (self.yard.pch, (PCH_FIRST,)), (self.yard.handed_over, ()), (self.yard.reconfigured, ()), (self.yard.left_idle, ())):
                self.refused(asternhaken.REFUSED_NOT_FOR_YARD, call, tick, *words)
        self.refused(asternhaken.REFUSED_CLOCK, self.yard.tick, 1999)
        self.refused(asternhaken.REFUSED_SETUP, self.yard.setup, [DISPATCHER], 0)
        self.refused(asternhaken.REFUSED_SETUP, self.yard.setup, range(0, 18, 2), 0)
        self.assertEqual(len(self.yard.shown), 1)
        self.yard.setup(range(0, 16, 2), 0)
        self.assertEqual(self.shown(), [])

    def test_states(self):
        self.yard.nch(2000, self.HUMP_CALL)
        other = YardSet.from_state(self.yard.state)
        self.yard.reselected(2001)
        self.assertEqual((len(other.shown), len(self.yard.shown), other.is_set_up), (1, 0, True))
        self.assertRaises(Refused, YardSet.from_state, Receiver([YARD], 0).state)
        self.assertEqual(len(other.state), asternhaken.YARD_LENGTH)


def bearer(octets):
    """The same octets in another kind of bytes."""
    return memoryview(bytearray(octets))


if __name__ == "__main__":
    unittest.main()
