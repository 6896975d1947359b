#!/usr/bin/env python3
"""tools/capture-from-pcap: a capture file put into pcap files of every kind that it reads, and converted back to the same bytes; the
parts of a capture out of one pcap file; and bad files, of which it names file and fault, writes nothing, and exits with 1.

    tests/pcap.py FOLDER CAPTURE.1.cap CAPTURE.2.cap ..      (FOLDER is for the files made here)"""
import os, random, struct, subprocess, sys

PORTS = {1: 5004, 2: 5006, 3: 5008}
FOLDER, CAPTURES = sys.argv[1], sys.argv[2:]
TOOL = os.path.join(os.path.dirname(os.path.abspath(__file__)), "..", "tools", "capture-from-pcap")
checks = 0


def must(holds, what):
    global checks
    checks += 1
    if not holds:
        sys.exit(f"pcap: not as it must be: {what}")


# ---- a capture file as frames

def set_up(capture):
    """L, D and P of a capture file."""
    return struct.unpack(">BBH", capture[2:6])


def entries(capture):
    """Port and body of each entry of a capture file."""
    count, = struct.unpack(">H", capture[:2])
    lines = [struct.unpack(">BBHI", capture[12 + 8 * i:20 + 8 * i]) for i in range(count)]
    return [(port, capture[start:start + length]) for port, _, length, start in lines]


def udp(port, body):
    return struct.pack(">HHHH", 40000, port, 8 + len(body), 0) + body


def ipv4(packet, options=b"", fragment=0x4000, protocol=17):
    size = 20 + len(options)
    return struct.pack(">BBHHHBBHII", 0x40 + size // 4, 0, size + len(packet), 1, fragment, 64, protocol, 0, 1, 2) + options + packet


def ipv6(packet, between=b"", following=17):
    return struct.pack(">IHBB32x", 6 << 28, len(between + packet), following, 64) + between + packet


HOP_BY_HOP = bytes([17, 0, 1, 4, 0, 0, 0, 0])
FIRST_FRAGMENT, LATER_FRAGMENT = bytes([17, 0, 0, 1, 0, 0, 0, 0]), bytes([17, 0, 0, 8, 0, 0, 0, 0])
V4, V6, SINGLE, DOUBLE = b"\x08\x00", b"\x86\xdd", b"\x81\x00\x00\x07", b"\x88\xa8\x00\x05\x81\x00\x00\x07"
KINDS = {  # link type and frame of a UDP packet
    "Ethernet": (1, lambda u: bytes(12) + V4 + ipv4(u) + bytes(7)),
    "Ethernet with a VLAN tag": (1, lambda u: bytes(12) + SINGLE + V4 + ipv4(u)),
    "Ethernet with two VLAN tags": (1, lambda u: bytes(12) + DOUBLE + V6 + ipv6(u)),
    "IPv4 with bytes after the UDP packet": (1, lambda u: bytes(12) + V4 + ipv4(u + b"rest")),
    "IPv4 with options": (1, lambda u: bytes(12) + V4 + ipv4(u, bytes(8))),
    "Linux cooked, v1": (113, lambda u: bytes(14) + V4 + ipv4(u)),
    "Linux cooked, v2": (276, lambda u: V6 + bytes(18) + ipv6(u)),
    "raw IP": (101, ipv4),
    "raw IPv6 with hop-by-hop options": (101, lambda u: ipv6(u, HOP_BY_HOP, 0)),
    "BSD loopback": (0, lambda u: b"\x02\0\0\0" + ipv4(u)),
    "BSD loopback of IPv6": (0, lambda u: b"\0\0\0\x1e" + ipv6(u)),
}


# ---- frames as a file: each a link type and bytes

def classic(frames, magic=0xA1B2C3D4, order=">"):
    words = [struct.pack(order + "IHHIIII", magic, 2, 4, 0, 0, 65535, frames[0][0])]
    return b"".join(words + [struct.pack(order + "IIII", 1, 2, len(frame), len(frame)) + frame for _, frame in frames])


def block(kind, body, order="<"):
    body += bytes(-len(body) % 4)
    size = struct.pack(order + "I", 12 + len(body))
    return struct.pack(order + "I", kind) + size + body + size


def section(order="<"):
    return block(0x0A0D0D0A, struct.pack(order + "IHHq", 0x1A2B3C4D, 1, 0, -1), order)


def interface(link, order="<"):
    return block(1, struct.pack(order + "HHI", link, 0, 0), order)


def enhanced(number, frame, order="<"):
    return block(6, struct.pack(order + "IIIII", number, 0, 0, len(frame), len(frame)) + frame, order)


def pcapng(frames, order="<"):
    return section(order) + interface(frames[0][0], order) + block(5, b"what it does not know", order) + \
        b"".join(enhanced(0, frame, order) for _, frame in frames)


def two_sections(frames):
    """A section of two interfaces, the second one in use; then one with simple and old packet blocks."""
    half = len(frames) // 2
    first = b"".join(enhanced(1, frame) for _, frame in frames[:half])
    rest = [block(3, struct.pack(">I", len(frame)) + frame, ">") if i % 2 else
            block(2, struct.pack(">HHIIII", 0, 0, 0, 0, len(frame), len(frame)) + frame, ">") for i, (_, frame) in enumerate(frames[half:])]
    return section() + interface(147) + interface(frames[0][0]) + first + section(">") + interface(frames[0][0], ">") + b"".join(rest)


FORMS = {
    "pcap": classic,
    "pcap, little-endian": lambda frames: classic(frames, order="<"),
    "pcap in nanoseconds": lambda frames: classic(frames, 0xA1B23C4D),
    "pcap in nanoseconds, little-endian": lambda frames: classic(frames, 0xA1B23C4D, "<"),
    "pcapng": pcapng,
    "pcapng, big-endian": lambda frames: pcapng(frames, ">"),
    "pcapng of two sections": two_sections,
}


def frames_of(capture, kind):
    """The frames of a capture file, and between them others that are to be left: of another port, protocol and later fragments."""
    link, frame = KINDS[kind]
    frames = [frame(udp(5005, b"x"))]
    if link in (0, 101):
        left = udp(5004, b"left")
        others = ipv4(left, protocol=6), ipv4(left, fragment=9), ipv6(left, LATER_FRAGMENT, 44), b"", b"\x45"
        frames += [bytes(4 if link == 0 else 0) + other for other in others]
    frames += [frame(udp(PORTS[port], body)) for port, body in entries(capture)]
    return [(link, frame) for frame in frames]


# ---- the tool

def run(data, sizes, *more):
    """What the tool makes of a file, or nothing; its exit, and what it says."""
    made = os.path.join(FOLDER, "out.cap")
    if os.path.exists(made):
        os.remove(made)
    with open(os.path.join(FOLDER, "in.pcap"), "wb") as file:
        file.write(data)
    options = [word for pair in zip(("--media", "--column", "--row", "--l", "--d", "--p"), (*PORTS.values(), *sizes)) for word in pair]
    command = [sys.executable, TOOL, os.path.join(FOLDER, "in.pcap"), *options, made, *more]
    done = subprocess.run(list(map(str, command)), capture_output=True, text=True)
    must("Traceback" not in done.stderr, done.stderr)
    if not os.path.exists(made):
        return None, done.returncode, done.stderr
    with open(made, "rb") as file:
        return file.read(), done.returncode, done.stderr


def refused(data, sizes, fault, *more):
    made, code, said = run(data, sizes, *more)
    must(made is None and code == 1 and f"in.pcap: {fault}" in said, f"{fault}: exit {code}, {said}")


def round_trips(name):
    with open(name, "rb") as file:
        capture = file.read()
    sizes = set_up(capture)
    pairs = [("Ethernet", form) for form in FORMS] + [(kind, form) for kind in KINDS for form in ("pcap", "pcapng")]
    for kind, form in pairs:
        made, code, said = run(FORMS[form](frames_of(capture, kind)), sizes)
        count = len(entries(capture))
        must(made == capture and code == 0 and f"took {count} of {count} datagrams" in said, f"{name} as {kind}, {form}: {said}")


def parts(names):
    """The parts of a capture in one pcap file: 512 entries are taken, or from a number on, with the numbers that are given."""
    captures = [open(name, "rb").read() for name in names]
    sizes, all_entries = set_up(captures[0]), [entry for capture in captures for entry in entries(capture)]
    data = pcapng([frame for capture in captures for frame in frames_of(capture, "Ethernet")])
    made, _, said = run(data, sizes)
    must(entries(made) == all_entries[:512] and f"took 512 of {len(all_entries)} " in said and f"left {len(all_entries) - 512};" in said, said)
    at = 0
    for capture in captures:
        count = len(entries(capture))
        must(run(data, sizes, "--from", at + 1, "--entries", count)[0] == capture, f"the part from {at} on")
        at += count
    made, _, said = run(data, sizes, "--base", 7, "--n", 100, "--k", 3, "--entries", 2)
    must(struct.unpack(">HBBHHHH", made[:12]) == (2, *sizes, 7, 100, 3) and entries(made) == all_entries[:2], said)
    refused(data, sizes, f"{len(all_entries)} datagrams of these ports, and none from number 9999 on", "--from", 9999)


def chosen():
    """n and K where they are not given: bounded by 400 and 128, by what the media reach, by L x D, and by the room of a replay."""
    def media(number):
        return 101, ipv4(udp(5004, struct.pack(">BBHII", 0x80, 33, number, 0, 0)))

    for reach, sizes, wanted, more in [
            (1, (4, 4, 188), (16, 128), ()), (17, (4, 4, 188), (17, 128), ()), (401, (4, 4, 188), (144, 73), ()),
            (401, (4, 4, 188), (214, 3), ("--k", 3)), (401, (4, 4, 188), (90, 127), ("--n", 90)), (401, (1, 4, 188), (173, 44), ()),
            (401, (5, 5, 1316), (25, 6), ()), (401, (10, 10, 1316), (400, 128), ()), (150, (10, 10, 1428), (150, 128), ()),
            (401, (10, 10, 1316), (100, 128), ("--n", 100))]:
        made, _, said = run(classic([media(65500), media((65499 + reach) % 65536), media(65499)]), sizes, *more)
        must(made and struct.unpack(">HHH", made[6:12]) == (65500, *wanted), f"{reach} {sizes} {more}: {said}")


def bad_files():
    sizes = (4, 4, 188)
    good = [(1, bytes(12) + V4 + ipv4(udp(5004, bytes(40))))]
    frame = good[0][1]

    def ethernet(packet):
        return classic([(1, bytes(12) + V4 + packet)])

    for data in (b"", b"\n", b"\n\r\r", b"\xa1\xb2", b"a text that is none", bytes(100)):
        refused(data, sizes, "neither a pcap nor a pcapng file")
    refused(classic(good)[:20], sizes, "cut inside the header of the file")
    refused(classic(good)[:30], sizes, "cut inside the header of a frame, at byte 24")
    refused(classic(good)[:-1], sizes, "cut inside a frame, at byte 40")
    refused(pcapng(good)[:-1], sizes, "cut inside a block")
    refused(section() + b"\1\0\0", sizes, "cut inside the head of a block, at byte 28")
    refused(section()[:8] + bytes(20), sizes, "a section of no byte order, at byte 0")
    refused(section() + struct.pack("<III", 6, 8, 8), sizes, "a block of 8 bytes, at byte 28")
    refused(section() + block(1, bytes(4)), sizes, "cut inside the block of an interface at byte 28")
    refused(section() + enhanced(0, frame), sizes, "a frame of an interface that is not described, at byte 28")
    refused(section() + interface(1) + block(6, struct.pack("<IIIII", 0, 0, 0, 99, 99)), sizes, "cut inside the block of a frame at byte 48")
    refused(classic([(147, frame)]), sizes, "frame 1: link type 147")
    refused(ethernet(ipv4(udp(5004, bytes(40))[:-1]) + bytes(7)), sizes, "frame 1: a UDP packet of 48 bytes, of which 47 are there")
    refused(ethernet(ipv4(udp(5004, bytes(1501)))), sizes, "frame 1: a datagram of 1501 bytes")
    refused(ethernet(ipv4(udp(5004, bytes(40)), fragment=0x2000)), sizes, "frame 1: a fragment of an IP packet")
    refused(classic([(101, ipv6(udp(5004, bytes(40)), FIRST_FRAGMENT, 44))]), sizes, "frame 1: a fragment of an IP packet")
    refused(classic([(101, ipv4(udp(5005, b"x")))]), sizes, "no datagram to port 5004, 5006, 5008 in its 1 frames")
    refused(classic([(101, ipv4(udp(5006, bytes(40))))]), sizes, "no media packet among those taken")
    must(run(classic([(101, ipv4(udp(5006, bytes(40))))]), sizes, "--base", 9)[1] == 0, "no media packet, and a base")
    must(run(ethernet(ipv4(udp(5004, bytes(1500)))), sizes)[1] == 0, "a datagram of 1500 bytes")


def changed():
    """A file with bytes changed, or cut, is converted or refused, never with a traceback."""
    drawn = random.Random(1)
    frames = [(1, bytes(12) + SINGLE + V4 + ipv4(udp(PORTS[1 + i % 3], bytes(30)))) for i in range(3)]
    for data in (classic(frames), pcapng(frames), two_sections([(101, ipv6(udp(5004, bytes(20)), HOP_BY_HOP, 0))] * 3)):
        for _ in range(25):
            wrong = bytearray(data)
            for _ in range(drawn.randint(1, 3)):
                wrong[drawn.randrange(len(wrong))] = drawn.choice((0, 1, 4, 255, drawn.randrange(256)))
            made, code, said = run(bytes(wrong[:drawn.choice((len(data), drawn.randrange(len(data))))]), (4, 4, 188))
            must(code == (made is None) and "in.pcap: " in said, f"exit {code}, {said}")


os.makedirs(FOLDER, exist_ok=True)
round_trips(CAPTURES[0])
parts(CAPTURES)
chosen()
bad_files()
changed()
print(f"pcap: {checks} checks as they must be, with {len(FORMS)} forms of a file and {len(KINDS)} kinds of frames")
