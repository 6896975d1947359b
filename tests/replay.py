#!/usr/bin/env python3
"""Files of every kind through the program replay, and what it printed of each.

    tests/replay.py PROGRAM FAILING CAPTURE ..      the transcript, which tools/replay holds to tests/replay.stdout

The files are put together here by request 2 of document 02 alone, in a folder that is removed again. FAILING is tests/failing_read.c as
a shared library: with it each read of a file fails in turn. Of each capture the answers are counted, and the last line is shown."""
import collections, itertools, os, subprocess, sys, tempfile, time

EXAMPLE = bytes.fromhex("0001 0404 00BC FFFA 0010 0008 0100 0002 0000 0014 ABCD")


def head(count, l=4, d=4, p=188, base=65530, n=16, k=8):
    return count.to_bytes(2, "big") + bytes([l, d]) + b"".join(x.to_bytes(2, "big") for x in (p, base, n, k))


def file(entries, **numbers):
    """The file of some entries, each a port and a body."""
    table, start = b"", 12 + 8 * len(entries)
    for port, body in entries:
        table += bytes([port, 0]) + len(body).to_bytes(2, "big") + start.to_bytes(4, "big")
        start += len(body)
    return head(len(entries), **numbers) + table + b"".join(body for _, body in entries)


def media(number, fill, size=188):
    return bytes([0x80, 33]) + (number % 65536).to_bytes(2, "big") + bytes([0, 0, 0, fill, 0, 0, 0, 1]) + bytes([fill]) * size


def parity(start, row, fills, length=0):
    """The parity of packets whose timestamps and bytes are these, four by four, from a number on, with a length recovery."""
    x = 0
    for fill in fills:
        x ^= fill
    rtp = bytes([0x80, 96, 0, 1, 0, 0, 0, 0, 0, 0, 0, 2])
    fec = start.to_bytes(2, "big") + bytes([0, length, 0x80, 0, 0, 0, 0, 0, 0, x, 0x40 if row else 0, 1 if row else 4, 4, 0])
    return rtp + fec + bytes([x]) * 188


def changed(data, at, value):
    return data[:at] + bytes([value]) + data[at + 1 :]


def traffic():
    """A 4 x 4 whose packets 0, 1, 4 and 6 are lost, with all parity: a chain of rebuilds, a repeat, a packet of another window."""
    fills = [10 * i + 1 for i in range(16)]
    entries = [(1, media(65530 + i, fills[i])) for i in range(16) if i not in (0, 1, 4, 6)]
    entries += [(2, parity(65530 + c, False, [fills[c + 4 * r] for r in range(4)])) for c in range(4)]
    entries += [(3, parity((65530 + 4 * r) % 65536, True, fills[4 * r : 4 * r + 4])) for r in range(4)]
    return entries + [(1, media(65530, fills[0])), (1, media(65529, 7)), (3, parity(65531, False, fills[:4])), (1, media(65531, 99))]


def cases():
    two = file([(1, b"\xab\xcd"), (3, b"xyz")])
    yield "the request's example", EXAMPLE
    yield "an empty file", b""
    yield "no entries", file([])
    yield "empty bodies", file([(1, b""), (2, b""), (3, b"")])
    yield "traffic with losses", file(traffic())
    yield "a spoilt parity packet", file([(1, media(65530 + i, 1)) for i in range(3)] + [(3, parity(65530, True, [1, 1, 1, 1], 1))])
    yield "512 entries", file([(1 + i % 3, bytes(i % 5)) for i in range(512)])
    yield "513 entries", file([(1, b"")] * 513)
    yield "513 in the header alone", head(513)
    yield "a body of 1,500 bytes", file([(1, bytes(1500))])
    yield "a body of 1,501 bytes", file([(1, bytes(1501))])
    yield "the largest file", file([(3, bytes(1500))] * 512)
    yield "the largest file, one byte short", file([(3, bytes(1500))] * 512)[:-1]
    yield "the largest file, one byte more", file([(3, bytes(1500))] * 512) + b"\0"
    for size in (1, 11, 12, 13, 19, 20, 27, 28, 29, len(two) - 1):
        yield f"cut after {size} bytes", two[:size]
    yield "one byte after the last body", two + b"\0"
    yield "one byte after no entries", file([]) + b"\0"
    yield "a count one too low", changed(two, 1, 1)
    yield "a count one too high", changed(two, 1, 3)
    for at, what in ((12, "the first port"), (20, "the last port")):
        for port in (0, 4, 255):
            yield f"{what} {port}", changed(two, at, port)
    for at, what in ((13, "the first zero byte"), (21, "the last zero byte")):
        yield f"{what} 1", changed(two, at, 1)
    for at, value, what in ((15, 3, "the first length one more"), (15, 1, "the first length one less"), (23, 4, "the last length one more"), (23, 2, "the last length one less")):
        yield what, changed(two, at, value)
    for at in (16, 17, 18, 24, 25, 26):
        yield f"byte {at - 16 if at < 20 else at - 24} of a start 1", changed(two, at, 1)
    yield "the first start one more, a gap", changed(two, 19, two[19] + 1)
    yield "the last start one more, a gap", changed(two, 27, two[27] + 1)
    yield "the last start one less, an overlap", changed(two, 27, two[27] - 1)
    yield "starts counted from the bodies", changed(changed(two, 19, 0), 27, 2)
    yield "starts the other way round", two[:16] + two[16:20][::-1] + two[20:24] + two[24:28][::-1] + two[28:]
    for numbers in ({"l": 0}, {"l": 21}, {"d": 3}, {"d": 21}, {"l": 11, "d": 10, "n": 110}):
        yield f"1: {numbers}", file([(1, b"x")], **numbers)
    for p in (0, 187, 189, 1504, 1632, 65535):
        yield f"2: P {p}", file([(1, b"x")], p=p)
    for numbers in ({"n": 15}, {"n": 401}, {"k": 0}, {"k": 129}, {"n": 65535}):
        yield f"3: {numbers}", file([(1, b"x")], **numbers)
    yield "1 before 2 and 3", file([(1, b"x")], l=0, p=1, k=0)
    yield "2 before 3", file([(1, b"x")], p=1, k=0)
    yield "21 before 1", file([(1, b"x")], l=0) + b"\0"
    yield "21 before 3, cut", file([(1, b"xy")], k=0)[:-1]
    for l, d, p, n, k in ((4, 4, 188, 89, 128), (4, 4, 188, 90, 128), (10, 10, 188, 216, 1), (10, 10, 188, 217, 1), (4, 4, 1428, 16, 12), (4, 4, 1428, 16, 13), (1, 4, 1316, 4, 27), (1, 4, 1316, 4, 28), (1, 4, 408, 4, 96), (1, 4, 408, 4, 97),
                          (1, 4, 408, 20, 80), (1, 4, 408, 21, 79), (1, 4, 408, 40, 60), (1, 4, 408, 41, 59), (1, 4, 408, 60, 40), (1, 4, 408, 61, 39), (1, 4, 408, 80, 20), (1, 4, 408, 81, 19)):
        yield f"P {p}, n {n}, K {k}: {(n + k) * p} bytes", file([(1, media(65530, 3, p))], l=l, d=d, p=p, n=n, k=k)
    yield "21 before too big", file([(1, b"x")], p=1428, n=400, k=128) + b"\0"
    yield "3 before too big", file([(1, b"x")], p=1428, n=401, k=128)


def show(what, text):
    """A case and its text; a line that comes more than twice in a row, once and how often."""
    print(f"-- {what}")
    for line, run in itertools.groupby(text.decode().splitlines(keepends=True)):
        many = len(list(run))
        print(f"{many} x {line}" if many > 2 else line * many, end="")


def piped(program, data):
    """What is printed of a file that comes in through a pipe, in pieces that end anywhere."""
    with subprocess.Popen([program, "/dev/stdin"], stdin=subprocess.PIPE, stdout=subprocess.PIPE) as run:
        for at in range(0, len(data), 97):
            run.stdin.write(data[at : at + 97])
            run.stdin.flush()
            time.sleep(0.001)
        return run.communicate(timeout=60)[0]


def failing(program, library, name):
    """What is printed where one read of a file fails and those after it do not, for each of its reads."""
    text = b""
    for turn in itertools.count(1):
        said = subprocess.run([program, name], capture_output=True, timeout=60, env={"LD_PRELOAD": library, "FAILING_READ": str(turn)})
        if said.returncode == 9:
            return text
        text += said.stdout


def count(capture, text):
    """A capture: how often each answer was given, how many packets were rebuilt, and the last line."""
    *lines, last = text.decode().splitlines()
    answers = collections.Counter(int(line.split()[0]) for line in lines)
    rebuilt = sum(int(line.split()[1]) for line in lines)
    print(f"-- {os.path.basename(capture)}\n{', '.join(f'{n} x {a}' for a, n in sorted(answers.items()))}; {rebuilt} rebuilt\n{last}")


def main():
    program, library = map(os.path.abspath, sys.argv[1:3])
    with tempfile.TemporaryDirectory() as folder:
        name = os.path.join(folder, "file.cap")
        for what, data in cases():
            with open(name, "wb") as out:
                out.write(data)
            said = subprocess.run([program, name], capture_output=True, timeout=60)
            show(what, said.stdout)
            if said.returncode or said.stderr:
                sys.exit(f"replay of {what!r} ended with {said.returncode}: {said.stderr.decode()}")
        for what, words in (("no such file", [os.path.join(folder, "none")]), ("a folder", [folder]), ("no argument", []), ("a path that is too long", ["x" * 5000]), ("a file without end", ["/dev/zero"])):
            said = subprocess.run([program, *words], capture_output=True, timeout=60)
            show(what, said.stdout)
        with open(name, "wb") as out:
            out.write(file(traffic()))
        show("traffic with losses, each read of it failing in turn", failing(program, library, name))
    show("traffic with losses, through a pipe", piped(program, file(traffic())))
    for capture in sys.argv[3:]:
        count(capture, subprocess.run([program, capture], capture_output=True, timeout=60).stdout)


main()
