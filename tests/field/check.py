"""What tests/field.sh asks of the field command, beside sessions: captures that other code made, vectors, tshark, replay, damage.

    check.py foreign FOLDER                 writes captures by hand, octet by octet, and nothing of ours has a part in it
    check.py session COMMAND-FOLDER FILE    runs the lines of FILE that begin with "$ ", and holds what they write, and their status, to what stands below each
    check.py messages KIND [FIRST]          the octets of all vectors, a line each: nch or facch, with another first octet
    check.py trace MESSAGES DECODED TSHARK  holds decode --json and the dissector in tshark to each other, message by message
    check.py answers KIND DECODED           holds decode --json to the answers of vectors/vNN.txt
    check.py capture KIND MESSAGES FILE     a capture of these messages
    check.py channels COMMAND FOLDER        holds what decode says of channels to what tshark does
    check.py told WATCHED REPLAYED          holds watch --json to replay
    check.py damage FOLDER COMMAND FILE     the command ends well on damaged copies of a capture

Each prints what failed, and a last line 'N passed, M failed'."""
import glob
import json
import os
import random
import struct
import subprocess
import sys

passed = failed = 0


def note(holds, what):
    global passed, failed
    if holds:
        passed += 1
    else:
        failed += 1
        if failed <= 20:
            print("failed:", what)


def finish():
    print("%d passed, %d failed" % (passed, failed))
    sys.exit(failed > 0 or passed == 0)


# ---- Captures by hand ----


def gsmtap(block, arfcn=12, channel_type=2, timeslot=0, kind=1, version=2, words=4, uplink=False):
    head = struct.pack(">BBBBHbbIBBBB", version, words, kind, timeslot, arfcn | (0x4000 if uplink else 0), -70, 20, 4711, channel_type, 0, 0, 0)
    return head + b"\0" * (4 * words - 16) + block


def udp(payload, port=4729, source=40000):
    return struct.pack(">HHHH", source, port, 8 + len(payload), 0) + payload


def ip_4(payload, protocol=17, fragment=0x4000, options=b"", length=None):
    size = 20 + len(options) + len(payload) if length is None else length
    return struct.pack(">BBHHHBBH4s4s", 0x45 + len(options) // 4, 0, size, 1, fragment, 64, protocol, 0, bytes(4), bytes(4)) + options + payload


def ip_6(payload, following=17):
    return struct.pack(">IHBB16s16s", 6 << 28, len(payload), following, 64, bytes(16), bytes(16)) + payload


def ethernet(payload, kind=0x0800, tags=()):
    return bytes(12) + b"".join(struct.pack(">HH", tag, 5) for tag in tags) + struct.pack(">H", kind) + payload


def pcap(frames, link, order="<", nanoseconds=False):
    magic = 0xA1B23C4D if nanoseconds else 0xA1B2C3D4
    out = struct.pack(order + "IHHiIII", magic, 2, 4, 0, 0, 65535, link)
    for time, frame, sent in frames:
        fraction = round((time - int(time)) * (10**9 if nanoseconds else 10**6))
        out += struct.pack(order + "IIII", int(time), fraction, len(frame), sent or len(frame)) + frame
    return out


def padded(octets):
    return octets + b"\0" * (-len(octets) % 4)


def pcapng(frames, link):
    def block(kind, body):
        return struct.pack("<II", kind, 12 + len(body)) + body + struct.pack("<I", 12 + len(body))

    out = block(0x0A0D0D0A, struct.pack("<IHHq", 0x1A2B3C4D, 1, 0, -1)) + block(1, struct.pack("<HHI", link, 0, 0))
    for time, frame, sent in frames:
        us = round(time * 10**6)
        out += block(6, struct.pack("<IIIII", 0, us >> 32, us & 0xFFFFFFFF, len(frame), sent or len(frame)) + padded(frame))
    return out


FIRST = bytes.fromhex("b00024cea3852091922b2b2b2b2b2b2b2b2b2b2b")
SECOND = bytes.fromhex("b00024cea30712345678932b2b2b2b2b2b2b2b2b")
ON_FACCH = bytes.fromhex("043f59f55a84b3b9cd2b2b2b2b2b2b2b2b2b2b2b2b2b2b")  # of osmo-bts: 66428757 VGCS


def nch(octets):
    return b"\x09\x06\x20" + octets


def two_halves(wrap, types=(2, 2)):
    return [(1000.25, wrap(gsmtap(nch(FIRST), channel_type=types[0])), 0), (1000.75, wrap(gsmtap(nch(SECOND), channel_type=types[1])), 0)]


def in_ip(payload):
    return ip_4(udp(payload))


def links():
    def sll(x):
        return struct.pack(">HHH8sH", 0, 772, 6, bytes(8), 0x0800) + in_ip(x)

    def sll2(x):
        return struct.pack(">HHIHBB8s", 0x0800, 0, 1, 772, 0, 6, bytes(8)) + in_ip(x)

    return {
        "ethernet": (1, lambda x: ethernet(in_ip(x))),
        "padded": (1, lambda x: ethernet(in_ip(x)) + b"\xff" * 9),
        "tagged": (1, lambda x: ethernet(in_ip(x), tags=(0x88A8, 0x8100))),
        "ipv6": (1, lambda x: ethernet(ip_6(udp(x)), 0x86DD)),
        "options": (101, lambda x: ip_4(udp(x), options=bytes(8))),
        "raw": (101, in_ip),
        "raw6": (101, lambda x: ip_6(udp(x))),
        "source": (101, lambda x: ip_4(udp(x, port=1, source=4729))),
        "null": (0, lambda x: struct.pack("<I", 2) + in_ip(x)),
        "null-big": (0, lambda x: struct.pack(">I", 30) + ip_6(udp(x))),
        "loop": (108, lambda x: struct.pack(">I", 2) + in_ip(x)),
        "cooked": (113, sll),
        "cooked2": (276, sll2),
        "gsmtap": (217, lambda x: x),
    }


def mixed():
    """Everything that is counted and passed over, with the two halves among it."""
    block = nch(FIRST)
    wrong_length = bytearray(ethernet(in_ip(gsmtap(block))))
    wrong_length[14 + 20 + 4] = 0xFF  # UDP says that it is longer than IP
    frames = [
        ethernet(in_ip(gsmtap(block))),
        ethernet(b"\0" * 28, 0x0806),
        ethernet(ip_4(b"\0" * 20, protocol=6)),
        ethernet(ip_4(udp(b"hello", port=53))),
        ethernet(ip_4(udp(gsmtap(block))[:30], fragment=0x2000)),
        ethernet(ip_4(gsmtap(block)[:20], fragment=3)),
        ethernet(in_ip(gsmtap(block, version=3))),
        ethernet(in_ip(gsmtap(block, kind=3))),
        ethernet(in_ip(gsmtap(block, kind=13))),
        ethernet(in_ip(gsmtap(block, uplink=True))),
        ethernet(in_ip(gsmtap(b"\x15\x06\x21" + bytes(20), channel_type=5))),
        ethernet(in_ip(gsmtap(bytes(23), channel_type=9))),
        ethernet(in_ip(gsmtap(block, channel_type=13))),
        ethernet(in_ip(gsmtap(block, words=3))),
        ethernet(in_ip(gsmtap(b""))),
        ethernet(in_ip(b"\x02")),
        ethernet(b"\x60" + in_ip(gsmtap(block))[1:]),
        bytes(wrong_length),
        ethernet(b"", 0x0800),
        b"",
        ethernet(in_ip(gsmtap(block, words=5))),  # a longer header is allowed
        ethernet(in_ip(gsmtap(ON_FACCH, channel_type=9, timeslot=3))),
        ethernet(in_ip(gsmtap(b"\x05\x00" + ON_FACCH[:21], channel_type=0x89))),
        ethernet(in_ip(gsmtap(ON_FACCH[:21], channel_type=0x88))),
        ethernet(in_ip(gsmtap(nch(SECOND)))),
        ethernet(in_ip(gsmtap(nch(SECOND)[:22]))),
    ]
    out = [(2000 + i / 100, frame, 0) for i, frame in enumerate(frames)]
    whole = ethernet(in_ip(gsmtap(block)))
    out += [(2001 + n / 100, whole[:n], len(whole)) for n in (10, 20, 40, 50, 60, len(whole) - 1)]
    return out


def foreign(folder):
    def write(name, octets):
        with open(os.path.join(folder, name), "wb") as file:
            file.write(octets)

    for name, (link, wrap) in links().items():
        write("by-hand-%s.pcap" % name, pcap(two_halves(wrap), link))
    wrap = links()["ethernet"][1]
    write("by-hand-big.pcap", pcap(two_halves(wrap), 1, order=">"))
    write("by-hand-nano.pcap", pcap(two_halves(wrap), 1, nanoseconds=True))
    write("by-hand.pcapng", pcapng(two_halves(wrap), 1))
    for first in (0, 1, 2, 4, 5):
        write("by-hand-type-%d.pcap" % first, pcap(two_halves(wrap, (first, 2)), 1))
    write("mixed.pcap", pcap(mixed(), 1))
    write("wifi.pcap", pcap([], 105))
    halves = two_halves(in_ip)
    write("back.pcap", pcap([(1000.5, halves[0][1], 0), (999.9, halves[1][1], 0), (1002.5, halves[0][1], 0), (1001.5, halves[1][1], 0)], 101))
    write("pause.pcap", pcap([(1000.25, halves[0][1], 0), (1000.25 + 4000000, halves[0][1], 0), (1000.75 + 4000000, halves[1][1], 0), (1e9, halves[0][1], 0)], 101))
    write("empty.pcap", pcap([], 1))
    write("nothing.pcap", b"")
    write("text.pcap", b"this is no capture, but a text of some length\n")
    write("torn.pcap", pcap(two_halves(wrap), 1)[:-30])
    many = [(3000 + i, in_ip(gsmtap(nch(call_only(1000 + i)))), 0) for i in range(60)]
    write("many.pcap", pcap(many, 101))


def call_only(reference):
    """NT/N Rest Octets with one call that has no channel: flag 0, flag 1, 36 bits, flag 0, flag 0, then padding."""
    bits = "01" + format(reference, "027b") + "0" * 9 + "00"
    rest = format(0x2B, "08b") * 20
    return int(bits + rest[len(bits) :], 2).to_bytes(20, "big")


# ---- Sessions ----


def session(folder, name, write):
    with open(name) as file:
        lines = file.read().splitlines()
    out, wanted = [], []
    os.environ["PATH"] = folder + ":" + os.environ["PATH"]
    i = 0
    while i < len(lines):
        if not lines[i].startswith("$ "):
            out.append(lines[i])
            i += 1
            continue
        command, i = lines[i][2:], i + 1
        wanted = []
        while i < len(lines) and not lines[i].startswith("$ ") and not lines[i].startswith("#"):
            wanted.append(lines[i])
            i += 1
        done = subprocess.run(["sh", "-c", command], stdout=subprocess.PIPE, stderr=subprocess.STDOUT, stdin=subprocess.DEVNULL, timeout=60)
        said = done.stdout.decode("utf-8", "replace").splitlines() + ["status %d" % done.returncode, ""]
        out += ["$ " + command] + said
        if not any(line.startswith("status ") for line in wanted):
            said = said[:-2]  # a page for people leaves the status out
        holds = [line for line in said if line] == [line for line in wanted if line]
        note(holds or write, "%s: %s\n  wanted %s\n  and said %s" % (name, command, wanted, said))
    if write:
        with open(name, "w") as file:
            file.write("\n".join(out).rstrip("\n") + "\n")


# ---- Vectors ----


def messages(kind, first=None):
    """With a first octet, that one stands in the place of what nobody looks at."""
    seen = {}
    root = os.path.join(os.path.dirname(os.path.abspath(__file__)), "..", "..", "vectors")
    for name in sorted(glob.glob(os.path.join(root, "v[0-9]*.txt"))):
        for line in open(name):
            words = line.split()
            if words[:2] == [">", kind] and words[3] != "-":
                seen[words[3]] = 1
            if words[:3] == [">", "ev", kind] and words[4] != "-":
                seen[words[4]] = 1
    for line in open(os.path.join(root, kind + "-mixed.tsv")):
        octets = line.split("\t")[0]
        if octets and octets != "octets":
            seen[octets] = 1
    for line in open(os.path.join(root, "osmo-bts-1.9.0.tsv")):
        words = line.rstrip("\n").split("\t")
        if words[0] == kind.upper():
            seen[words[-1]] = 1
    least = {"nch": 20, "facch": 1}[kind]
    whole = [octets for octets in seen if len(octets) >= 2 * least and len(octets) <= 2 * (20 if kind == "nch" else 23)]
    return whole if first is None else list({first + octets[2:]: 1 for octets in whole})


def read_json(name):
    with open(name) as file:
        return [json.loads(line) for line in file]


def trace_of(decoded):
    return " ".join("%d:%d:%s:%0*x" % (f["bit"], f["width"], f["name"], (f["width"] + 3) // 4, f["value"]) for f in decoded["fields"])


def trace(messages_name, decoded_name, tshark_name):
    octets, decoded = open(messages_name).read().split(), read_json(decoded_name)
    with open(tshark_name) as file:
        lines = [line.rstrip("\n").split("\t") for line in file]
    note(len(octets) == len(decoded) == len(lines) and len(octets) >= 300, "%d messages, %d decoded, %d lines of tshark" % (len(octets), len(decoded), len(lines)))
    for one, ours, theirs in zip(octets, decoded, lines):
        what = [str(ours["refusal"]), str(ours["refused_bit"]), str(ours["read_to"]), trace_of(ours)]
        note(ours["octets"] == one and theirs == what, "%s: decode says %s and the dissector %s" % (one, what, theirs))
        holds, at = True, 0
        for f in ours["fields"]:
            holds = holds and f["bit"] == at and len(f["bits"]) == f["width"]
            at += f["width"]
        note(holds and at == ours["read_to"], "%s: fields have a gap" % one)


def answers(kind, decoded_name):
    by_octets = {d["octets"]: d for d in read_json(decoded_name)}
    root = os.path.join(os.path.dirname(os.path.abspath(__file__)), "..", "..", "vectors")
    compared = 0
    for name in glob.glob(os.path.join(root, "v[0-9]*.txt")):
        command = None
        for line in open(name):
            words = line.split()
            if words[:1] == ["<"] and command and command[3] in by_octets:
                ours = by_octets[command[3]]
                refusal, bit, used = int(words[1]), int(words[2]), int(words[3])
                note((ours["refusal"], ours["refused_bit"]) == (refusal, bit), "%s: refused %s at %s, not %d at %d" % (command[3], ours["refusal"], ours["refused_bit"], refusal, bit))
                note(ours["read_to"] == (used if refusal == 0 else bit) or refusal not in (0, 2, 14, 15), "%s: read to %d" % (command[3], ours["read_to"]))
                compared += 1
            command = words if words[:2] == [">", kind] else None
    note(compared >= 50, "only %d answers were compared" % compared)


def capture(kind, messages_name, name):
    def block(octets):
        if kind == "nch":
            return gsmtap(nch(octets))
        return gsmtap(octets, channel_type=9)

    frames = [(1000 + i, in_ip(block(bytes.fromhex(octets))), 0) for i, octets in enumerate(open(messages_name).read().split())]
    with open(name, "wb") as file:
        file.write(pcap(frames, 101))


# ---- Replay ----


def told(watched_name, replayed_name):
    """The told numbers of watch, frame by frame, are those that replay prints; so are the refusals."""
    watched, replayed, number = {}, {}, 0
    for line in read_json(watched_name):
        if line["type"] in ("entry", "refused"):
            said = ("refused", line["refusal"]) if line["type"] == "refused" else (line["key"], line["told"])
            watched.setdefault(line["frame.number"], []).append(said)
    for line in open(replayed_name):
        words = line.split()
        if words[:1] == ["field"]:
            continue
        if line.startswith("  "):
            replayed[number].append((int(words[0]), int(words[1])))
        else:
            number = int(words[0])
            replayed[number] = [("refused", int(words[2]))] if int(words[2]) else []
            is_message = words[1] in "12"
            if not is_message:
                del replayed[number]
                replayed[number] = []
    ours = [watched[n] for n in sorted(watched)]
    theirs = [replayed[n] for n in sorted(replayed) if replayed[n]]
    note(len(ours) > 0, "nothing was told")
    note(ours == theirs, "watch told %s, replay %s" % (ours, theirs))


# ---- Channels ----


def channels(command, folder):
    """What decode says of Channel Descriptions is what tshark says of the same 24 bits in IMMEDIATE ASSIGNMENT (06 3f 00, then the description)."""
    chance, sent = random.Random(29), []
    for kind in (1, 2, 3, 4, 7, 8, 15):
        for hops in (0, 1):
            for _ in range(4):
                rest = chance.randrange(4096) if hops else chance.randrange(1024)
                sent.append(kind << 19 | chance.randrange(8) << 16 | chance.randrange(8) << 13 | hops << 12 | rest)
    blocks = [b"\x2d\x06\x3f\x00" + bits.to_bytes(3, "big") + bytes(5) + b"\x2b" * 11 for bits in sent]
    name = os.path.join(folder, "assignments.pcap")
    with open(name, "wb") as file:
        file.write(pcap([(1000 + i, in_ip(gsmtap(block, channel_type=4)), 0) for i, block in enumerate(blocks)], 101))
    names = ["gsm_a.rr.timeslot", "gsm_a.rr.training_sequence", "gsm_a.rr.hopping_channel", "gsm_a.rr.single_channel_arfcn", "gsm_a.rr.hopping_channel_maio", "gsm_a.rr.hsn"]
    said = subprocess.run(["tshark", "-r", name, "-T", "fields"] + [word for one in names for word in ("-e", one)], stdout=subprocess.PIPE, stderr=subprocess.DEVNULL).stdout.decode()
    lines = said.splitlines()
    note(len(lines) == len(sent), "tshark said %d lines for %d channels" % (len(lines), len(sent)))
    for bits, line in zip(sent, lines):
        slot, sequence, hops, arfcn, maio, hsn = (line.split("\t") + [""] * 6)[:6]
        message = "01" + format(1, "027b") + "0" * 9 + "1" + format(bits, "024b") + str(bits >> 12 & 1)
        octets = int((message + "0" * 160)[:160], 2).to_bytes(20, "big").hex()
        shown = json.loads(subprocess.run([command, "decode", "--json", octets], stdout=subprocess.PIPE).stdout)
        meaning = [f["meaning"] for f in shown["fields"] if f["name"] == "CHANNEL"][0]
        wanted = "timeslot %s, training sequence %s, " % (slot, sequence)
        wanted += "hops with MAIO %s, HSN %s" % (maio, hsn) if hops in ("1", "True") else "ARFCN %s" % arfcn
        note(slot != "" and meaning.endswith(wanted), "%06x: decode says '%s', tshark '%s' (%s)" % (bits, meaning, wanted, line))


# ---- Damage ----


def run_on(command, name, octets):
    with open(name, "wb") as file:
        file.write(octets)
    done = subprocess.run(command + [name], stdout=subprocess.PIPE, stderr=subprocess.STDOUT, timeout=60)
    said = done.stdout.decode("utf-8", "replace")
    return done.returncode in (0, 1, 2) and "Sanitizer" not in said and "runtime error" not in said, said


def damage(folder, command, name):
    octets = open(name, "rb").read()
    place = os.path.join(folder, "damaged.pcap")
    chance = random.Random(29)
    cuts = sorted(set(list(range(0, 60)) + [chance.randrange(len(octets)) for _ in range(60)]))
    for cut in cuts:
        holds, said = run_on(command, place, octets[:cut])
        note(holds, "cut to %d octets: %s" % (cut, said[-600:]))
        note(cut < 24 or "damaged" in said or (cut - 24) == 0 or ends_whole(octets, cut), "cut to %d octets, and no damage is named" % cut)
    for _ in range(200):
        spoiled = bytearray(octets)
        for _ in range(chance.choice((1, 1, 2, 5, 40))):
            spoiled[chance.randrange(len(spoiled))] = chance.choice((0, 255, chance.randrange(256)))
        holds, said = run_on(command, place, bytes(spoiled))
        note(holds, "spoiled: %s\n%s" % (said[-600:], bytes(spoiled).hex()))


def ends_whole(octets, cut):
    at = 24
    while at < cut:
        at += 16 + struct.unpack("<I", octets[at + 8 : at + 12])[0]
    return at == cut


def main():
    word, rest = sys.argv[1], sys.argv[2:]
    if word == "foreign":
        foreign(*rest)
        return
    if word == "messages":
        print("\n".join(messages(*rest)))
        return
    if word == "capture":
        capture(*rest)
        return
    if word == "session":
        session(rest[0], rest[1], rest[2:] == ["--write"])
    elif word == "trace":
        trace(*rest)
    elif word == "answers":
        answers(*rest)
    elif word == "channels":
        channels(*rest)
    elif word == "told":
        told(*rest)
    elif word == "damage":
        damage(rest[0], rest[1:-1], rest[-1])
    finish()


main()
