#!/usr/bin/env python3
"""Checks the built program over real input, and its output against the plain model of grammar.py.

Run it from anywhere, with the names of some checks or with none for all: it starts the program by the
launcher at the top of the repository. It prints one line for each check and ends with status 1 if any
failed. Each run of the program has a time limit.
"""

import os
import random
import resource
import shutil
import subprocess
import sys
import tempfile
import threading
import time

sys.dont_write_bytecode = True
from grammar import MAX, Delim, Fixed, Length, Line, report  # noqa: E402

TOP = os.path.dirname(os.path.dirname(os.path.abspath(__file__)))
LAUNCHER = os.path.join(TOP, "yukolese")
PROGRAM = os.path.join(TOP, "crates", "relay_prog", "out", "relay_prog")
SECONDS = 100
BUILD_SECONDS = 3600


def run(words, stream=b"", **options):
    """The status, the output and the standard error of the program."""
    done = subprocess.run([LAUNCHER, *words], input=stream, capture_output=True, timeout=SECONDS, **options)
    return done.returncode, done.stdout, done.stderr


def frames_words(field, strip):
    return ["frames", f"length,field={field},strip={strip}"]


def framed(field, payloads):
    return b"".join(len(p).to_bytes(field, "big") + p for p in payloads)


class Failure(Exception):
    pass


def same(what, got, wanted):
    if got != wanted:
        raise Failure(f"{what}: got {str(got)[:300]}, wanted {str(wanted)[:300]}")


def meets_model(codec, stream, blocks=(None,)):
    """The program cuts a stream as the model of its codec does, whatever the size of its blocks."""
    text, fault = report(codec, stream)
    for block in blocks:
        words = ["frames", codec.word(), *([] if block is None else [f"--block={block}"])]
        status, out, err = run(words, stream)
        what = f"{' '.join(words)} over {len(stream)} bytes, {stream[:40]!r}: "
        same(what + "report", out, text)
        same(what + "status", status, 3 if fault else 0)
        same(what + "standard error", err.decode(), f"{fault}\n" if fault else "")


def worked_examples():
    """What each codec makes of small streams, read whole and byte by byte."""
    table = [
        ("length,field=1,strip=1", b"\3abc\1x", ["F 0 3 616263", "F 4 1 78"]),
        ("length,field=1,strip=1", b"", []),
        ("length,field=2", b"\0\5ab", ["X 0 Cut"]),
        ("length,field=1,strip=1", b"\0", ["F 0 0 -"]),
        ("length,field=1", b"\1a", ["F 0 2 0161"]),
        ("length,strip=2,field=2", b"\0\1a", ["F 0 1 61"]),
        ("length,field=2,order=le,strip=2", b"\1\0a", ["F 0 1 61"]),
        ("length,field=8,max=16", b"\xff" * 8 + b"a", ["X 0 TooLong"]),
        ("length,field=1,adjust=-3", b"\1\1a", ["X 0 TooSmall", "X 1 TooSmall", "X 2 Cut"]),
        ("length,field=1,strip=3", b"\1a", ["X 0 StripOver"]),
        ("length,field=1,offset=2,strip=1", b"hi\2abz", ["F 0 4 69026162", "X 5 Cut"]),
        ("line", b"", []),
        ("line", b"a\r\nb\n", ["F 0 1 61", "F 3 1 62"]),
        ("line", b"\n\r\n\r", ["F 0 0 -", "F 1 0 -", "F 3 1 0d"]),
        ("line", b"a\rb\nc", ["F 0 3 610d62", "F 4 1 63"]),
        ("line,strip=no", b"a\r\nb", ["F 0 3 610d0a", "F 3 1 62"]),
        ("line,end=lf", b"a\r\nb\n", ["F 0 2 610d", "F 3 1 62"]),
        ("line,end=crlf", b"a\nb\r\n", ["F 0 3 610a62"]),
        ("line,end=crlf", b"\r\r\n\r", ["F 0 1 0d", "F 3 1 0d"]),
        ("line,max=2", b"abcd\ne", ["X 0 TooLong", "F 5 1 65"]),
        ("line,max=2", b"ab\r\nab\nabc", ["F 0 2 6162", "F 4 2 6162", "X 7 TooLong"]),
        ("delim,hex=0a", b"a\n\nb", ["F 0 1 61", "F 2 0 -", "X 3 Cut"]),
        ("delim,hex=00|0000", b"a\0\0b\0", ["F 0 1 61", "F 2 0 -", "F 3 1 62"]),
        ("delim,hex=0d0a|0a", b"a\r\nb\n", ["F 0 1 61", "F 3 1 62"]),
        ("delim,hex=6162,strip=no", b"xaabab", ["F 0 4 78616162", "F 4 2 6162"]),
        ("delim,hex=616261", b"ababa", ["F 0 0 -", "X 3 Cut"]),
        ("delim,hex=2c,max=1", b"ab,c,de", ["X 0 TooLong", "F 3 1 63", "X 5 Cut"]),
        ("fixed,size=2", b"abcde", ["F 0 2 6162", "F 2 2 6364", "X 4 Cut"]),
        ("fixed,size=1", b"ab", ["F 0 1 61", "F 1 1 62"]),
    ]
    for codec, stream, lines in table:
        fault = next((line for line in lines if line.startswith("X")), None)
        text = "".join(f"{line}\n" for line in [*lines, f"end {len(stream)}"]).encode()
        error = f"stream {fault[2:]}\n".encode() if fault else b""
        for more in ([], ["--block", "1"]):
            same(f"{codec} over {stream!r} {more}", run(["frames", codec, *more], stream),
                 (3 if fault else 0, text, error))


def bad_words():
    """Each kind of usage fault, with the word that is named; nothing is read and nothing is written."""
    name = "a" * 65
    hex65 = "00" * 65
    subscribers = [f"s{i}" for i in range(64)]
    relay = ["relay", "line", "--out", "raw"]
    table = {
        "Command": [
            (0, []), (0, [""]), (0, ["frame", "length,field=1"]), (0, ["--help"]), (0, [b"\xff"]), (0, ["-"]),
            (0, ["Frames", "line"]), (0, ["--block", "1", "frames", "line"]), (0, [b"frames\xff", "line"]),
        ],
        "Option": [
            (2, ["frames", "line", "--cap", "1"]), (1, ["frames", "--", "line"]), (1, ["frames", "-"]),
            (2, ["chain", "--in=a", "--block=1"]), (2, ["mill", "3", "--in"]), (1, ["frames", "--help"]),
            (2, ["frames", "line", "--Block", "1"]), (2, ["frames", "line", b"--in\xff", "a"]),
        ],
        "Twice": [
            (5, ["relay", "line", "--out", "raw", "a", "a@1"]), (4, ["frames", "line", "--block", "1", "--block"]),
            (3, ["frames", "line", "--limit=1", "--limit=x"]), (68, [*relay, *subscribers, "s0"]),
        ],
        "Value": [
            (3, ["frames", "line", "--block", "0"]), (3, ["frames", "line", "--block", "1048577"]),
            (2, ["frames", "line", "--block=01"]), (2, ["frames", "line", "--block"]),
            (2, ["frames", "line", "--block", "--limit"]), (2, ["frames", "line", "--block="]),
            (3, ["frames", "line", "--limit", "1099511627777"]), (3, ["frames", "line", "--limit", "10000000000000"]),
            (2, ["frames", "line", "--limit", "-1"]), (2, ["frames", "line", "--limit=-1"]),
            (3, ["frames", "line", "--in", ""]), (3, ["frames", "line", "--in", "a/b"]),
            (3, ["frames", "line", "--in", name]), (3, ["frames", "line", "--in", "1a"]),
            (3, ["frames", "line", "--in", b"a\xff"]), (2, ["frames", "line", "--in"]),
            (1, ["mill", "100001"]), (1, ["mill", "x"]), (2, ["chain", "--in", "A"]),
            (5, [*relay, "--cap", "1025", "a"]), (5, [*relay, "--slow", "Wait", "a"]),
            (5, [*relay, "--stages", "upper+", "a"]), (4, ["relay", "line", "a", "b", "--out"]),
        ],
        "Codec": [
            (1, ["frames", "length"]), (1, ["frames", "length,"]), (1, ["frames", "length,strip=1"]),
            (1, ["frames", "length,field=01"]), (1, ["frames", "length,field=256"]),
            (1, ["frames", "length,field=1,field=1"]), (1, ["frames", "length,field=1,"]),
            (1, ["frames", "Length,field=1"]), (1, ["frames", b"length,field=1\xff"]), (1, ["frames", ""]),
            (1, ["frames", "length,field=1,adjust=65537"]), (1, ["frames", "length,field=1,offset=16777217"]),
            (1, ["frames", "length,field=1,order=LE"]), (1, ["frames", "line,end=cr"]), (1, ["frames", "line,strip=1"]),
            (1, ["frames", "delim"]), (1, ["frames", "delim,hex=0"]), (1, ["frames", "delim,hex=0A"]),
            (1, ["frames", "fixed"]), (3, ["relay", "line", "--out", "delim,hex=0a|0b", "a"]),
        ],
        "BadField": [
            (1, ["frames", "length,field=3"]), (1, ["frames", "length,field=0"]),
            (1, ["frames", "length,field=255,max=0"]), (3, ["relay", "line", "--out", "length,field=16", "a"]),
        ],
        "ZeroLen": [
            (1, ["frames", "line,max=0"]), (1, ["frames", "fixed,size=0"]), (1, ["frames", "delim,hex=0a|"]),
            (3, ["relay", "line", "--out", "delim,hex=", "a"]),
        ],
        "MaxOver": [(1, ["frames", "fixed,size=16777217"]), (1, ["frames", "length,field=4,max=16777217"])],
        "OffsetOver": [(1, ["frames", "length,field=2,max=1"]), (1, ["frames", "length,field=4,offset=13,max=16"])],
        "NoDelim": [(1, ["frames", "delim,hex="])],
        "DelimOver": [(1, ["frames", "delim,hex=01|02|03|04|05|06|07|08|09"]), (1, ["frames", f"delim,hex={hex65}"])],
        "Sub": [
            (4, [*relay, "a@2..1"]), (4, [*relay, "A"]), (4, [*relay, "a@"]), (68, [*relay, *subscribers, "t"]),
            (4, [*relay, b"a\xff"]),
        ],
        "Extra": [
            (2, ["frames", "line", "line"]), (2, ["frames", "length,field=1", "x"]), (1, ["chain", "x"]),
            (2, ["mill", "3", "4"]),
        ],
        "Missing": [
            (1, ["frames"]), (3, ["frames", "--block", "1"]), (1, ["mill"]), (3, ["relay", "line", "a"]),
            (4, relay), (4, ["relay", "--out", "raw", "--cap=1"]),
        ],
        "OutOver": [
            (3, ["relay", "line", "--out", "length,field=1", "a"]),
            (2, ["relay", "fixed,size=256", "--out=length,field=1", "a"]),
        ],
        "InOut": [(6, [*relay, "--in", "a", "a"]), (6, [*relay, "b", "--in=c", "c@1..2"])],
        "NotBuilt": [
            (0, ["chain"]), (0, ["chain", "--in", "a"]), (0, [*relay, "a", "b@1..2"]), (0, ["mill", "3"]),
        ],
    }
    for kind, rows in table.items():
        for word, words in rows:
            same(f"words {words}", run(words, b"\1a"), (2, b"", f"usage {word} {kind}\n".encode()))


def named_inputs():
    """Inputs by name, in the folder where the program is started, with limits and blocks."""
    stream = framed(1, [b"abc", b"", b"x" * 255, b"yz"])
    text = report(Length(1, strip=1), stream)[0]
    words = frames_words(1, 1)
    with tempfile.TemporaryDirectory() as folder:
        with open(os.path.join(folder, "named.bin"), "wb") as file:
            file.write(stream)
        with open(os.path.join(folder, "empty"), "wb"):
            pass
        os.mkdir(os.path.join(folder, "folder"))
        size = len(stream)
        table = [
            (["--in", "named.bin"], (0, text, b"")),
            (["--in=named.bin", "--block", "1"], (0, text, b"")),
            (["--block=1048576", "--in=named.bin"], (0, text, b"")),
            (["--in", "named.bin", "--limit", str(size)], (0, text, b"")),
            (["--in", "named.bin", "--limit", str(size), "--block", "1"], (0, text, b"")),
            (["--in", "empty"], (0, b"end 0\n", b"")),
            (["--in", "empty", "--limit", "0"], (0, b"end 0\n", b"")),
            (["--in", "no_such_file"], (6, b"", b"not opened 0\n")),
            (["--in", "folder"], (4, b"end 0\n", b"source\n")),
            (["--in", "folder", "--limit", "0"], (4, b"end 0\n", b"source\n")),
        ]
        for limit in (0, 1, 4, 5, size - 1):
            for block in (1, 3, 65_536):
                cut = report(Length(1, strip=1), stream[:limit], ended=False)[0]
                table.append((["--in", "named.bin", f"--limit={limit}", f"--block={block}"], (7, cut, b"limit\n")))
        for more, wanted in table:
            same(f"words {more}", run([*words, *more], b"\1!", cwd=folder), wanted)
        # Standard input is read where no name is given, and only there.
        with open(os.path.join(folder, "named.bin"), "rb") as stdin:
            done = subprocess.run([LAUNCHER, *words, "--in", "empty"], stdin=stdin, capture_output=True, cwd=folder,
                                  timeout=SECONDS)
            same("another input", (done.returncode, done.stdout), (0, b"end 0\n"))
            same("standard input", os.lseek(stdin.fileno(), 0, os.SEEK_CUR), 0)
        os.chmod(os.path.join(folder, "empty"), 0)
        if not os.access(os.path.join(folder, "empty"), os.R_OK):
            same("not to be read", run([*words, "--in", "empty"], cwd=folder), (6, b"", b"not opened 0\n"))
    same("limit of standard input", run([*words, "--limit", "4"], stream), (7, b"F 0 3 616263\nend 4\n", b"limit\n"))


BLOCKS = (None, 1, 2, 7, 64, 4096)


def random_frames():
    """Streams of frames by their length, some of them cut or spoilt."""
    rng = random.Random(20)
    for case in range(60):
        field = rng.choice([1, 2, 4, 8])
        codec = Length(field, strip=rng.randint(0, field))
        payloads = [rng.randbytes(rng.choice([0, 1, 2, 17, 200, 255])) for _ in range(rng.randint(0, 400))]
        stream = framed(field, payloads)
        if case % 3 == 1:
            stream += rng.randbytes(rng.randint(0, 9))
        if case % 3 == 2 and field > 2:
            cut = rng.randint(0, len(stream))
            stream = stream[:cut] + rng.randbytes(12) + stream[cut:]
        meets_model(codec, stream, (None, rng.choice(BLOCKS)))


def any_codec(rng):
    """A codec, and bytes of which its streams are likely made."""
    kind = rng.randrange(4)
    small = rng.choice([1, 2, 5, 40])
    if kind == 0:
        field, offset = rng.choice([1, 2, 4]), rng.choice([0, 0, 1, 3])
        codec = Length(field, offset, rng.choice([0, -field, 2]), rng.choice([0, field, 3]), rng.choice(["be", "le"]),
                       field + offset + rng.choice([0, 3, 3000]))
        return codec, [b"\0"] * 6 + [b"\0\0\0", b"\1", b"\2\0", b"\3", b"\5", b"\x20"]
    if kind == 1:
        codec = Line(rng.choice(["any", "lf", "crlf"]), rng.random() < 0.7, rng.choice([small, MAX]))
        return codec, [b"\n", b"\r", b"\r\n", b"a", b"bc", b"d" * 30]
    if kind == 2:
        marks = rng.choice([[b"\n"], [b"\0", b"\0\0"], [b"ab", b"b", b"bab"], [b"aab"], [b"a" * 64, b"ab"],
                            [b"\r\n", b"\n", b"\r"], [b"ba", b"abab", b"a" * 63 + b"b"]])
        codec = Delim(marks, rng.random() < 0.7, rng.choice([small, MAX]))
        return codec, [*marks, b"a", b"b", b"ab", b"\0", b"\r", b"x" * 9, b"a" * 62]
    return Fixed(rng.choice([1, 2, 3, 64, 5000])), [b"a", b"bc", b"d" * 100]


def random_streams():
    """Streams that are likely to hold endings, parts of endings and faults, for every codec."""
    rng = random.Random(24)
    for _ in range(240):
        codec, parts = any_codec(rng)
        stream = b"".join(rng.choice(parts) for _ in range(rng.choice([0, 1, 5, 40, 400])))
        meets_model(codec, stream, (None, 1, rng.choice(BLOCKS)))


def odd_pieces():
    rng = random.Random(21)
    payloads = [rng.randbytes(rng.randint(0, 3000)) for _ in range(200)]
    stream = framed(2, payloads)
    child = subprocess.Popen([LAUNCHER, *frames_words(2, 2)], stdin=subprocess.PIPE, stdout=subprocess.PIPE)

    def feed():
        at = 0
        while at < len(stream):
            n = rng.choice([1, 2, 3, 7, 4095, 4097, 65_537])
            child.stdin.write(stream[at:at + n])
            child.stdin.flush()
            at += n
        child.stdin.close()

    feeder = threading.Thread(target=feed, daemon=True)
    late = threading.Timer(SECONDS, child.kill)
    feeder.start()
    late.start()
    out = child.stdout.read()
    feeder.join(SECONDS)
    late.cancel()
    same("status", child.wait(), 0)
    same("report", out, report(Length(2, strip=2), stream)[0])


def long_frames():
    rng = random.Random(22)
    whole = rng.randbytes(MAX - 4)
    meets_model(Length(4, strip=4), framed(4, [whole, b"behind"]))
    meets_model(Length(4), framed(4, [whole]))
    meets_model(Length(4, strip=4), framed(4, [whole + b"x", b"behind"]))
    meets_model(Length(8, strip=8), b"\xff" * 8 + b"skipped to the end")
    meets_model(Length(4, strip=4), (300_000).to_bytes(4, "big") + b"too short")
    line = whole.replace(b"\n", b"\r")
    meets_model(Line(), line + b"\r\n" + line, (None, 1_048_576))
    meets_model(Line(max=1000), line + b"\nbehind")
    meets_model(Delim([b"\n", b"\r" * 64]), line + b"\n" + line)
    meets_model(Fixed(700_000), whole + whole)


def real_files():
    rng = random.Random(23)
    stream = framed(1, [rng.randbytes(rng.randint(0, 255)) for _ in range(3000)])
    with tempfile.TemporaryDirectory() as folder:
        source, target = os.path.join(folder, "in"), os.path.join(folder, "out")
        with open(source, "wb") as file:
            file.write(stream)
        with open(source, "rb") as stdin, open(target, "wb") as stdout:
            done = subprocess.run([LAUNCHER, *frames_words(1, 1)], stdin=stdin, stdout=stdout, timeout=SECONDS)
        same("status", done.returncode, 0)
        with open(target, "rb") as file:
            same("report", file.read(), report(Length(1, strip=1), stream)[0])


def failing_outside():
    stream = framed(1, [b"abc"] * 50_000)
    with tempfile.TemporaryDirectory() as folder:
        path = os.path.join(folder, "in")
        with open(path, "wb") as file:
            file.write(stream)
        with open(path, "rb") as stdin, open("/dev/full", "wb") as full:
            done = subprocess.run([LAUNCHER, *frames_words(1, 1)], stdin=stdin, stdout=full,
                                  stderr=subprocess.PIPE, timeout=SECONDS)
            same("full device", (done.returncode, done.stderr), (10, b"report\n"))
            same("input read to its end", os.lseek(stdin.fileno(), 0, os.SEEK_CUR), len(stream))
        folder_fd = os.open(folder, os.O_RDONLY)
        done = subprocess.run([LAUNCHER, *frames_words(1, 1)], stdin=folder_fd, capture_output=True, timeout=SECONDS)
        os.close(folder_fd)
        same("a folder as input", (done.returncode, done.stdout, done.stderr), (4, b"end 0\n", b"source\n"))
        with open(path, "rb") as stdin:
            reader, writer = os.pipe()
            os.close(reader)
            done = subprocess.run([LAUNCHER, *frames_words(1, 1)], stdin=stdin, stdout=writer,
                                  stderr=subprocess.PIPE, timeout=SECONDS)
            os.close(writer)
        same("a reader that has gone", (done.returncode, done.stderr), (10, b"report\n"))
    # A fault in the stream is named before a failed report.
    with open("/dev/full", "wb") as full:
        done = subprocess.run([LAUNCHER, *frames_words(2, 2)], input=b"\0\5ab", stdout=full,
                              stderr=subprocess.PIPE, timeout=SECONDS)
        same("two faults", (done.returncode, done.stderr), (3, b"stream 0 Cut\n"))


def closed_streams():
    """A stream that is closed is one that fails; without standard error nobody is told but by the status."""
    wanted = [
        ("<&-", r"\002ab", (4, b"end 0\n", b"source\n")),
        (">&-", r"\002ab", (10, b"", b"report\n")),
        ("2>&-", r"\003ab", (3, b"X 0 Cut\nend 3\n", b"")),
    ]
    for closed, text, result in wanted:
        command = f"printf '{text}' | \"$0\" frames length,field=1 {closed}"
        done = subprocess.run(["sh", "-c", command, LAUNCHER], capture_output=True, timeout=SECONDS)
        same(closed, (done.returncode, done.stdout, done.stderr), result)


def streams_that_would_block():
    """A stream that doesn't wait is one that fails where it would have to: the program doesn't ask again."""
    reader, writer = os.pipe()
    os.set_blocking(reader, False)
    os.write(writer, b"\1a\2")
    done = subprocess.run([LAUNCHER, *frames_words(1, 1)], stdin=reader, capture_output=True, timeout=SECONDS)
    same("input", (done.returncode, done.stdout, done.stderr), (4, b"F 0 1 61\nend 3\n", b"source\n"))
    os.close(writer)
    os.close(reader)
    reader, writer = os.pipe()
    os.set_blocking(writer, False)
    try:
        while True:
            os.write(writer, b"x" * 4096)
    except BlockingIOError:
        pass
    done = subprocess.run([LAUNCHER, *frames_words(1, 1)], input=b"\1a", stdout=writer, stderr=subprocess.PIPE,
                          timeout=SECONDS)
    same("report", (done.returncode, done.stderr), (10, b"report\n"))
    os.close(writer)
    os.close(reader)


def within(kib):
    """Limits the address space of a child."""
    return lambda: resource.setrlimit(resource.RLIMIT_AS, (kib << 10, kib << 10))


def tiny_address_space():
    """From the least address space in which the program starts: it says that memory is short, or does its work."""
    stream = framed(1, [b"abc"] * 1000)
    text = report(Length(1, strip=1), stream)[0]
    seen = set()
    for kib in range(1024, 16 << 10, 64):
        limits = dict(capture_output=True, preexec_fn=within(kib), timeout=SECONDS)
        if not seen and subprocess.run([PROGRAM], **limits).returncode != 2:
            continue
        done = subprocess.run([PROGRAM, *frames_words(1, 1)], input=stream, **limits)
        if done.returncode == 8:
            same(f"{kib} KiB", (done.stderr, text.startswith(done.stdout)), (b"memory\n", True))
        else:
            same(f"{kib} KiB", (done.returncode, done.stdout, done.stderr), (0, text, b""))
        seen.add(done.returncode)
    same("statuses", seen, {0, 8})


def in_small_memory(words, pieces, wanted, kib=16 << 10):
    """A run over a long input in a small address space, and what it writes, or nothing where that is thrown away."""
    with tempfile.TemporaryFile() as source, tempfile.TemporaryFile() as sink:
        for piece, times in pieces:
            source.write(piece * times)
        source.seek(0)
        done = subprocess.run([PROGRAM, *words], stdin=source, stdout=subprocess.DEVNULL if wanted[1] is None else sink,
                              stderr=subprocess.PIPE, preexec_fn=within(kib), timeout=SECONDS)
        sink.seek(0)
        out = None if wanted[1] is None else sink.read(1000)
    same(f"words {words}", (done.returncode, out, done.stderr), wanted)


def bounded_memory():
    """Sixteen megabytes of the smallest frames go through in little address space, by the size of a block."""
    small = [("length,field=1,strip=1", b"\0"), ("length,field=1,strip=1", b"\1a"), ("line", b"\n"),
             ("delim,hex=0a|61", b"a"), ("fixed,size=1", b"a")]
    for codec, frame in small:
        for block, kib in ((65_536, 32 << 10), (4096, 8 << 10)):
            words = ["frames", codec, f"--block={block}"]
            in_small_memory(words, [(frame, (16 << 20) // len(frame))], (0, None, b""), kib)


def hostile_streams():
    """Streams of which no frame comes take no more memory than others, whatever the size of the blocks."""
    size = 2 << 20
    tries = [
        # A line without an end, and one of which a frame may come until it is too long.
        ("line,max=1000", [(b"a", size)], "TooLong"),
        ("line,end=crlf,max=1000", [(b"\r", size)], "TooLong"),
        # Frames without their delimiter, and with all of it but its last byte.
        ("delim,hex=0a,max=1000", [(b"a", size)], "Cut"),
        ("delim,hex=" + "61" * 63 + "62,max=1000", [(b"a", size)], "Cut"),
        # A length of nearly 2^64, one that is too long, and one that doesn't come.
        ("length,field=8", [(b"\xff", 8), (b"a", size)], "TooLong"),
        ("length,field=4,max=1000", [(b"\0\x7f\xff\xff", 1), (b"a", size)], "TooLong"),
        ("length,field=4", [(b"\0\x0f\xff\xfc", 1), (b"a", 1000)], "Cut"),
        ("fixed,size=16777216", [(b"a", 1000)], "Cut"),
    ]
    for codec, pieces, kind in tries:
        count = sum(len(piece) * times for piece, times in pieces)
        wanted = (3, f"X 0 {kind}\nend {count}\n".encode(), f"stream 0 {kind}\n".encode())
        for block in (65_536, 4):
            in_small_memory(["frames", codec, f"--block={block}"], pieces, wanted)


def processor_time():
    """What the processes took that were started here and have ended, in seconds."""
    used = resource.getrusage(resource.RUSAGE_CHILDREN)
    return used.ru_utime + used.ru_stime


def quickest(words, stream):
    """The least of three processor times: what else the machine does counts for less in it."""
    times = []
    for _ in range(3):
        begun = processor_time()
        same("status", run(words, stream)[0], 0)
        times.append(processor_time() - begun)
    return min(times)


def stays_linear(words, streams):
    """Eight times the stream takes at most twenty times as long."""
    times = [quickest(words, stream) for stream in streams]
    if times[1] > 20 * max(times[0], 0.01):
        sizes = [len(stream) for stream in streams]
        raise Failure(f"{' '.join(words)}: {times[0]:.3f} s for {sizes[0]} bytes, {times[1]:.3f} s for {sizes[1]}")


def linear_time():
    """Time is linear in the input, for frames of each size and by each codec, and for the smallest blocks."""
    for payload in (0, 1, 1024, 200_000):
        frame = framed(4, [b"x" * payload])
        stays_linear(frames_words(4, 4), [frame * (size // len(frame)) for size in (1 << 20, 8 << 20)])
    for payload in (1, 200_000):
        for codec, end in (("line", b"\r\n"), ("delim,hex=0d0a|0a", b"\r\n"), ("fixed,size=100", b"")):
            frame = (b"x" * payload + end) * 100
            stays_linear(["frames", codec], [frame * (size // len(frame) or 1) for size in (1 << 20, 8 << 20)])
    tries = [("1", "length,field=1,strip=1", b"\2ab"), ("12", "line", b"ab\n"), ("13", "delim,hex=00", b"ab\0"),
             ("1", "fixed,size=3", b"abc")]
    for blocks, codec, frame in tries:
        for block in blocks:
            words = ["frames", codec, "--block", block]
            stays_linear(words, [frame * (size // len(frame)) for size in (1 << 17, 1 << 20)])


def linear_time_of_long_frames():
    """Time is linear for frames of the default maximum, and in the length of one frame that comes byte by byte."""
    frame = framed(4, [b"x" * ((1 << 20) - 4)])
    stays_linear(frames_words(4, 4), [frame * (size // len(frame)) for size in (4 << 20, 32 << 20)])
    sizes = (1 << 16, 1 << 19)
    ended = [b"x" * (size - 1) + b"\n" for size in sizes]
    for codec, frames in (("length,field=4", [framed(4, [b"x" * (size - 4)]) for size in sizes]), ("line", ended),
                          ("delim,hex=0d0a|0a", ended)):
        stays_linear(["frames", codec, "--block", "1"], frames)


def launcher():
    with tempfile.TemporaryDirectory() as folder:
        done = subprocess.run([LAUNCHER, *frames_words(1, 1)], input=b"\3abc\1x", capture_output=True,
                              cwd=folder, timeout=SECONDS)
        same("from another folder", (done.returncode, done.stdout, done.stderr),
             (0, b"F 0 3 616263\nF 4 1 78\nend 6\n", b""))
        done = subprocess.run([LAUNCHER], capture_output=True, cwd=folder, timeout=SECONDS)
        same("its status", (done.returncode, done.stdout, done.stderr), (2, b"", b"usage 0 Command\n"))


def stale():
    """Makes the program older than its sources."""
    later = os.path.getmtime(PROGRAM) + 1
    os.utime(os.path.join(TOP, "crates.txt"), (later, later))


def first_starts():
    """Two starts beside each other wait for one build; a build that fails has a status of its own. The build is played
    by a script, which puts the program that is there into its place again, and notes that it ran."""
    with tempfile.TemporaryDirectory() as folder:
        kept, runs, builder = (os.path.join(folder, name) for name in ("kept", "runs", "rt"))
        shutil.copy2(PROGRAM, kept)
        environment = {**os.environ, "PATH": folder + os.pathsep + os.environ["PATH"]}

        def builds(script):
            with open(builder, "w", encoding="ascii") as file:
                file.write(f"#!/bin/sh\n{script}\n")
            os.chmod(builder, 0o755)
            os.utime(PROGRAM, (time.time() - 10, time.time() - 10))
            stale()

        builds("echo not proved\nexit 1")
        done = subprocess.run([LAUNCHER, "frames", "length,field=1"], input=b"\1a", capture_output=True,
                              env=environment, timeout=SECONDS)
        same("not built", (done.returncode, done.stdout, b"not proved" in done.stderr), (70, b"", True))
        builds(f"echo $1 >> '{runs}'\nsleep 1\ncp '{kept}' '{PROGRAM}'")
        starts = [subprocess.Popen([LAUNCHER, *frames_words(1, 1)], stdin=subprocess.PIPE, stdout=subprocess.PIPE,
                                   stderr=subprocess.DEVNULL, env=environment) for _ in range(2)]
        for child in starts:
            out, _ = child.communicate(b"\1a", timeout=SECONDS)
            same("start", (child.returncode, out), (0, b"F 0 1 61\nend 2\n"))
        with open(runs, encoding="ascii") as file:
            same("builds", file.read(), "run\n")


CHECKS = [worked_examples, bad_words, named_inputs, random_frames, random_streams, odd_pieces, long_frames, real_files,
          failing_outside, closed_streams, streams_that_would_block, tiny_address_space, bounded_memory,
          hostile_streams, linear_time, linear_time_of_long_frames, launcher, first_starts]


def main():
    picked = [check for check in CHECKS if check.__name__ in sys.argv[1:] or not sys.argv[1:]]
    unknown = set(sys.argv[1:]) - {check.__name__ for check in CHECKS}
    if unknown:
        print(f"program: no check is named {', '.join(sorted(unknown))}")
        return 1
    built = subprocess.run([LAUNCHER], stdin=subprocess.DEVNULL, capture_output=True, timeout=BUILD_SECONDS)
    if built.returncode != 2:
        print(f"program: not built\n{built.stderr.decode(errors='replace')}")
        return 1
    failed = 0
    for check in picked:
        try:
            check()
            print(f"program: {check.__name__}: ok")
        except Exception as error:
            failed += 1
            print(f"program: {check.__name__}: FAILED: {type(error).__name__}: {error}")
    print(f"program: {len(picked) - failed} passed, {failed} failed")
    return 1 if failed else 0


if __name__ == "__main__":
    sys.exit(main())
