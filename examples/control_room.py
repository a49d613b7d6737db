"""The small control room of control_room.c in Python: events come as lines on standard input, and the calls they tell of go to standard output.

    setup TICK T3206 T3208 T3210 CALL..   the calls to follow, in any order; NAME=CALL gives one a name, CALL:3,4 the group keys that are held for it
    nch TICK HEX                          NT/N Rest Octets came
    facch TICK HEX                        NOTIFICATION/FACCH came: it tells of a call, or pages somebody
    pch TICK CALL PART..                  the paging channel told of the call
    joined TICK CALL                      the call was joined
    bit_22 TICK VALUE                     bit 22 of COUNT has this value now, 0 or 1
    reselected TICK, handed_over TICK, reconfigured TICK, left_idle TICK, tick TICK

PART is ciphered, full=HEX (the 36 bits of the reference), channel=HEX with allocation=HEX or list=HEX where it hops, rand=HEX (VSTK_RAND) or count=HEX.
TICK and the timers are in ms. CALL is a reference and its service, 4711/VBS or 4711/VGCS, or the key itself: reference times 2, and 1 more for VGCS. A word that
begins with # begins a comment. A line that cannot be understood is named on standard error and skipped, and the status is then 1.

    PYTHONPATH=$(pkg-config --variable=python asternhaken) python3 control_room.py < sample.txt
"""
import io
import itertools
import re
import sys

import asternhaken
from asternhaken import PchEntry, Receiver, Refused

NAME = 12  # characters of a name at most


class Wrong(Exception):
    """What is wrong with a line."""


def number(word, what):
    if not re.fullmatch("[0-9]+", word) or int(word) >= 1 << 32:
        raise Wrong("%s is no number of 32 bits" % what)
    return int(word)


def call_key(word):
    match = re.fullmatch("([0-9]+)/(VBS|VGCS)", word) or re.fullmatch("([0-9]+)()", word)
    found = match and (asternhaken.key(int(match[1]), match[2] == "VGCS") if match[2] else int(match[1]))
    if found is None or found >= 1 << 32:
        raise Wrong("CALL is no key, REFERENCE/VBS or REFERENCE/VGCS")
    return found


def group_keys(word):
    """Numbers of group keys with commas between them. Whether there can be such a key, the library says, as far as there is a bit for it."""
    numbers = [int(n) for n in word.split(",")] if re.fullmatch("[0-9]+(,[0-9]+)*", word) else [32]
    if max(numbers) >= 32:
        raise Wrong("behind CALL: stand no numbers of group keys")
    return sorted(set(numbers))


def octets(word):
    if not re.fullmatch("([0-9a-fA-F]{2})*", word):
        raise Wrong("HEX is not two hexadecimal digits for each octet")
    return bytes.fromhex(word)


def pch_part(word):
    """What a part of a PCH entry sets there: NAME=HEX, whose digits make one number, or a mark."""
    name, _, digits = word.partition("=")
    if word == "ciphered":
        return {"ciphered": 1}
    value = int(digits, 16) if re.fullmatch("[0-9a-fA-F]{1,16}", digits) else None
    parts = {
        "full": {"reference_given": 1, "reference": value},
        "channel": {"channel_given": 1, "channel": value},
        "allocation": {"hops": 1, "allocation_octets": (len(digits) + 1) // 2, "frequencies": value},
        "list": {"hops": 1, "short_list": 1, "frequencies": value},
        "rand": {"rand_given": 1, "vstk_rand": value},
        "count": {"count_given": 1, "cell_global_count": value},
    }
    if value is None or name not in parts:
        raise Wrong("PART is no ciphered, full=, channel=, allocation=, list=, rand= or count= with up to 16 digits")
    return parts[name]


class ControlRoom:
    """A receiver, the names of its calls, and for each call the entry that was last complete with when it came and in which cell."""

    def __init__(self):
        self.receiver = None
        self.names, self.complete = {}, {}
        self.cells = 0  # that were left: a channel is of use only in its cell

    # ---- Showing ----

    def call(self, key):
        return "%-*s  %-4s %8d" % (NAME, self.names.get(key, ""), "VGCS" if key % 2 else "VBS", key // 2)

    def show(self, tick, word, parts):
        """An event's line; what is further on it stands on lines of its own."""
        print("%10d  %-12s  %s" % (tick, word, ("\n" + " " * 26).join(parts)))

    def follow(self, entry):
        """Whether a complete ciphered call can be followed, and with which count."""
        return entry.follow_word + (", count %d" % entry.kept_count if entry.follow == asternhaken.FOLLOW_WITH_COUNT else "")

    def shown(self, entry):
        text = "%s  %d " % (self.call(entry.key), entry.told)
        if not entry.record:
            return text + entry.told_word
        return text + "%-19s  %06x" % (entry.told_word, entry.record.channel) + ("   " + self.follow(entry) if entry.follow else "")

    def page(self, paged):
        """Who is paged: the kind and the octets of the mobile identity, the channel, and what for."""
        priority = "" if paged.emlpp_priority is None else ", priority %d" % paged.emlpp_priority
        return "paging %s %s, %s%s, %s" % (paged.identity_word, paged.identity.hex(), paged.channel_first_word, priority, paged.paging_cause_word)

    def show_list(self):
        print("\nCall list")
        for key in self.names:
            if key not in self.complete:
                print("  %s  not complete yet" % self.call(key))
                continue
            entry, tick, cell = self.complete[key]
            r = entry.record
            line = "channel %06x since %d, priority %d" % (r.channel, tick, r.priority)
            if cell != self.cells:
                line += ", in a cell left since"
            if r.emergency:
                line += ", EMERGENCY"
            if r.hops:
                line += ", hops by the list %016x" % r.frequencies if r.short_list else ", hops by the allocation %0*x" % (2 * r.allocation_octets, r.frequencies)
            if r.cipher_key_number:
                line += ", ciphered with key %d" % r.cipher_key_number
            if r.rand_given:
                line += ", VSTK_RAND %09x" % r.vstk_rand
            if r.count_given:
                line += ", sent with count %d" % r.cell_global_count
            if entry.follow:
                line += ", " + self.follow(entry)
            print("  %s  %s" % (self.call(key), line))

    # ---- Events ----

    def set_up(self, words):
        if len(words) < 5:
            raise Wrong("a setup is TICK T3206 T3208 T3210 CALL..")
        tick, *timers = (number(word, what) for word, what in zip(words[1:], ("TICK", "T3206", "T3208", "T3210")))
        calls = []
        for word in words[5:]:
            name, _, call = word.partition("=") if "=" in word else ("", "", word)
            if len(name) > NAME:
                raise Wrong("a name is too long")
            call, colon, held = call.partition(":")
            calls.append((call_key(call), name, group_keys(held) if colon else []))
        calls.sort(key=lambda call: call[0])  # shown in the order that the library has them in, each with its name
        receiver = Receiver([key for key, _, _ in calls], tick, *timers, groups={key: held for key, _, held in calls})
        if self.receiver:
            self.show_list()
            print()
        self.receiver, self.names, self.complete = receiver, {key: name for key, name, _ in calls}, {}
        lines = [self.call(key) + ("  group keys: " + ", ".join(map(str, held)) if held else "") for key, _, held in calls]
        self.show(tick, "setup", ["T3206 %d ms, T3208 %d ms, T3210 %d ms" % tuple(timers)] + lines)

    def answer(self, tick, words):
        if words[0] in ("nch", "facch"):
            if len(words) != 3:
                raise Wrong("the words are TICK HEX")
            return getattr(self.receiver, words[0])(tick, octets(words[2]))
        if words[0] == "pch":
            if len(words) < 3:
                raise Wrong("the words are TICK CALL PART..")
            entry = PchEntry(call_key(words[2]))
            for word in words[3:]:
                entry = entry._replace(**pch_part(word))
            return self.receiver.pch(tick, entry)
        if words[0] == "joined":
            if len(words) != 3:
                raise Wrong("the words are TICK CALL")
            return self.receiver.joined(tick, call_key(words[2]))
        if words[0] == "bit_22":
            if len(words) != 3:
                raise Wrong("the words are TICK VALUE")
            return self.receiver.bit_22(tick, number(words[2], "VALUE"))
        if len(words) != 2:
            raise Wrong("nothing stands behind the TICK")
        answer = getattr(self.receiver, words[0])(tick)
        self.cells += words[0] in ("reselected", "handed_over")
        return answer

    def event(self, words):
        if words[0] not in ("setup", "nch", "facch", "pch", "joined", "reselected", "handed_over", "reconfigured", "left_idle", "bit_22", "tick"):
            raise Wrong("no such event")
        if words[0] == "setup":
            return self.set_up(words)
        if not self.receiver:
            raise Wrong("no setup was accepted yet")
        tick = number(words[1] if len(words) > 1 else "", "TICK")
        answer = self.answer(tick, words)
        lost = [(n, how) for n, how in ((answer.expired, "ran out"), (answer.dropped, "dropped")) if n]
        parts = [", ".join("%d %s %s" % (n, "half" if n == 1 else "halves", how) for n, how in lost)] if lost else []
        pages = [self.page(answer.paged)] if answer.paged else []
        self.show(tick, words[0], parts + pages + [self.shown(entry) for entry in answer.entries] or ["-"])
        for entry in answer.entries:
            if entry.record and entry.key in self.names:
                self.complete[entry.key] = entry, tick, self.cells

    def line(self, text):
        words = list(itertools.takewhile(lambda word: not word.startswith("#"), text.split()))
        if not words:
            return
        try:
            self.event(words)
        except Refused as refused:
            self.show(int(words[1]), words[0], ["refused %d%s: %s" % (refused.number, " at bit %d" % refused.bit if refused.bit else "", refused.word)])


def main():
    room, status = ControlRoom(), 0
    print("%10s  %-12s  %-*s  %-13s  %-21s  %s  %s" % ("tick", "event", NAME, "name", "call", "told", "channel", "follow"))
    for place, text in enumerate(io.TextIOWrapper(sys.stdin.buffer, "utf-8", "replace", "\n"), 1):
        try:
            room.line(text.rstrip("\n"))
        except Wrong as wrong:
            print("line %d: %s" % (place, wrong), file=sys.stderr)
            status = 1
    if room.receiver:
        room.show_list()
    return status


if __name__ == "__main__":
    sys.exit(main())
