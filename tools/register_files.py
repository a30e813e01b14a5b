#!/usr/bin/env python3
"""Runs register_up and register_down on files, and holds what they write to the two layouts as `struct` has them. tools/test-register calls it.

Files of 0, 1, 2 and 1,000 records, and around the ends of a batch; a refused record first, in the middle and last; three records cut at every length; each
byte of a record changed, and two at once; files that arrive in pieces and files made at random; a million records up and down again, with a refused one
behind them, in little memory. Then writes that are cut short, and inputs and outputs that fail: what is told of them is README's, "A register's file".
Exit status: 0 all is as it should be, 1 something is not.
"""
import ctypes
import fcntl
import itertools
import mmap
import os
import random
import resource
import signal
import struct
import subprocess
import sys
import tempfile
import termios
import threading
import time

ROOT = os.path.dirname(os.path.dirname(os.path.abspath(__file__)))
SHORT = struct.Struct("<I4s128s")
LONG = struct.Struct("<IB3s128s128s")
BATCH = 248  # records that the programs take at a time: files end around it
dice = random.Random(9)
held = 0


def up(record):
    """The long record, or the number of a refusal."""
    if len(record) != SHORT.size:
        return 15
    panel, zeros, base = SHORT.unpack(record)
    return 17 if any(zeros) else LONG.pack(panel, 0, b"", base, b"")


def down(record):
    if len(record) != LONG.size:
        return 15
    panel, count, zeros, base, extension = LONG.unpack(record)
    if count > 1 or any(zeros) or (count == 0 and any(extension)):
        return 17
    return 16 if count else SHORT.pack(panel, b"", base)


WAYS = {"register_up": (up, SHORT.size), "register_down": (down, LONG.size)}


def expected(program, file):
    """What is to be written to standard output and to standard error."""
    step, size = WAYS[program]
    written = []
    for index, at in enumerate(range(0, len(file), size)):
        other = step(file[at : at + size])
        if isinstance(other, int):
            return b"".join(written), b"%d %d\n" % (index, other)
        written.append(other)
    return b"".join(written), b""


def command(program):
    return [os.path.join(ROOT, "crates", program, "out", program)]


def same(what, got, wanted):
    global held
    held += 1
    if got != wanted:
        sys.exit(f"test-register: {what}: got {brief(got)}, not {brief(wanted)}")


def brief(answer):
    return tuple(part if not isinstance(part, bytes) or len(part) < 80 else f"{len(part)} bytes" for part in answer)


def record(program, count=0):
    """One that is accepted, or with a count of 1 or more refused: an extension stands behind it."""
    panel, base = dice.getrandbits(32), dice.randbytes(128)
    if program == "register_up":
        return SHORT.pack(panel, bytes([count, 0, 0, 0]), base)
    return LONG.pack(panel, count, b"", base, dice.randbytes(128) if count else b"")


def records(program, n):
    return [record(program) for _ in range(n)]


# ---- files that are read and written


def check(program, file, what):
    got = subprocess.run(command(program), input=file, capture_output=True)
    same(f"{program}, {what}", (got.returncode, got.stdout, got.stderr), (0, *expected(program, file)))


def whole_files(program):
    for n in (0, 1, 2, 3, BATCH - 1, BATCH, BATCH + 1, 2 * BATCH, 2 * BATCH + 1, 1000):
        good = records(program, n)
        check(program, b"".join(good), f"{n} records")
        for at in {k for k in (0, 1, n // 2, BATCH - 1, BATCH, n - 2, n - 1) if 0 <= k < n}:
            for count in (1, 2):
                check(program, b"".join(good[:at] + [record(program, count)] + good[at + 1 :]), f"{n} records, number {at} refused")
        if n:
            check(program, b"".join(good)[:-1], f"{n} records, the last a byte short")


def cut_files(program):
    file = b"".join(records(program, 3))
    for n in range(len(file)):
        check(program, file[:n], f"cut at {n}")


def changed(program, count, changes, index):
    file = records(program, 3)
    one = bytearray(record(program, count))
    for at, byte in changes:
        one[at] = byte
    file[index] = bytes(one)
    check(program, b"".join(file), f"bytes {changes}, the count was {count}")


def changed_bytes(program):
    size = WAYS[program][1]
    zeros = range(4, 8) if program == "register_up" else (4, 5, 7, 136, 200, 263)
    for count in (0, 1) if program == "register_down" else (0,):
        for at in range(size):
            for byte in (0, 1, 0x80, 0xFF):
                changed(program, count, [(at, byte)], at % 3)
        for one, two in itertools.combinations(zeros, 2):
            for byte in (1, 2, 0x80, 0xFF):
                changed(program, count, [(one, byte), (two, byte)], one % 3)
                changed(program, count, [(one, byte), (two, 256 - byte)], two % 3)


def random_files(program):
    for turn in range(100):
        file = records(program, dice.randrange(600))
        for _ in range(dice.randrange(3)):
            if file:
                file[dice.randrange(len(file))] = record(program, dice.choice((1, 1, 2, 255)))
        check(program, b"".join(file) + dice.randbytes(dice.choice((0, 0, 0, 1, 135))), f"file {turn} made at random")


def in_pieces(program, file, sizes, what):
    """Each piece is taken by a read of its own: the next one comes when the pipe is empty."""
    child = subprocess.Popen(command(program), stdin=subprocess.PIPE, stdout=subprocess.PIPE, stderr=subprocess.PIPE)

    def feed():
        at = 0
        try:
            while at < len(file):
                n = next(sizes)
                os.write(child.stdin.fileno(), file[at : at + n])
                at += n
                while child.poll() is None and struct.unpack("i", fcntl.ioctl(child.stdin, termios.FIONREAD, b"\0\0\0\0"))[0]:
                    time.sleep(0)
            child.stdin.close()
        except BrokenPipeError:  # it has stopped at a refused record
            pass

    feeder = threading.Thread(target=feed)
    feeder.start()
    out = child.stdout.read()
    feeder.join()
    same(f"{program}, {what}", (child.wait(), out, child.stderr.read()), (0, *expected(program, file)))


def all_in_pieces(program):
    size = WAYS[program][1]
    any_size = iter(lambda: dice.choice((1, 7, 135, 136, 137, 263, 264, 265, 1000, 4096)), None)
    for n in (BATCH, 300):
        good = records(program, n)
        in_pieces(program, b"".join(good), itertools.repeat(size), f"{n} records in pieces of one")
        in_pieces(program, b"".join(good), any_size, f"{n} records in pieces")
        in_pieces(program, b"".join(good)[:-5], any_size, f"{n} records in pieces, cut short")
        good[n - 2] = record(program, 1)
        in_pieces(program, b"".join(good), any_size, f"{n} records in pieces, one refused")


def a_million(folder):
    """Up and down again; behind them one that is refused, which is told of once the others are written."""
    name = os.path.join(folder, "million")
    with open(name, "wb") as made:
        for _ in range(1000):
            made.write(b"".join(records("register_up", 1000)))
        size = made.tell()
        made.write(record("register_up", 1))
    little = lambda: resource.setrlimit(resource.RLIMIT_AS, (32 << 20, 32 << 20))
    with open(name, "rb") as stdin:
        pipes = {"stdout": subprocess.PIPE, "stderr": subprocess.PIPE, "preexec_fn": little}
        first = subprocess.Popen(command("register_up"), stdin=stdin, **pipes)
        second = subprocess.Popen(command("register_down"), stdin=first.stdout, **pipes)
        first.stdout.close()
        cmp = subprocess.run(["cmp", "-n", str(size), "-", name], stdin=second.stdout)
    got = (first.wait(), second.wait(), first.stderr.read(), second.stderr.read(), cmp.returncode)
    same("a million records up and down", got, (0, 0, b"1000000 17\n", b"", 0))
    os.remove(name)


# ---- reads and writes that fail, or are cut short


def stopped_write(program):
    """A write to a full pipe that a stop interrupts has written a part: it is gone on with. The second batch fills the pipe; nothing is told of the
    refused record in it before its others are written."""
    file = b"".join(records(program, 2 * BATCH - 3)) + record(program, 1)
    for turn in range(3):
        child = subprocess.Popen(command(program), stdin=subprocess.PIPE, stdout=subprocess.PIPE, stderr=subprocess.PIPE)
        feeder = threading.Thread(target=lambda: (child.stdin.write(file), child.stdin.close()))
        feeder.start()
        for _ in range(20):
            time.sleep(0.005)
            os.kill(child.pid, signal.SIGSTOP)
            os.kill(child.pid, signal.SIGCONT)
        waiting = struct.unpack("i", fcntl.ioctl(child.stderr, termios.FIONREAD, b"\0\0\0\0"))[0]
        same(f"{program}, told before it is written", (waiting,), (0,))
        out = child.stdout.read()
        feeder.join()
        same(f"{program}, stopped while it writes", (child.wait(), out, child.stderr.read()), (0, *expected(program, file)))


def told(program, what, wanted, **how):
    got = subprocess.run(command(program), stderr=subprocess.PIPE, **how)
    same(f"{program}, {what}", (got.returncode, got.stderr), wanted)


def failed_reads(program, folder):
    fd = os.open(folder, os.O_RDONLY)
    told(program, "a folder as input", (0, b"0 read failed\n"), stdin=fd, stdout=subprocess.DEVNULL)
    os.close(fd)
    told(program, "no input", (0, b"0 read failed\n"), stdout=subprocess.DEVNULL, preexec_fn=lambda: os.close(0))
    size = WAYS[program][1]
    for least in (24 << 12, 512 * size):  # within a record; with pages of 4,096 bytes between two, 512 records being a whole number of pages
        refused = records(program, 1000)
        refused[300] = record(program, 2)
        for good in (records(program, 1000), refused):
            try:
                fd, file = mapped(b"".join(good), least)
            except OSError as error:
                print(f"left out: an input that fails in its midst, {error}", file=sys.stderr)
                return
            got = subprocess.run(command(program), stdin=fd, capture_output=True)
            os.close(fd)
            whole = len(file) // size
            out, said = expected(program, file[: whole * size])
            same(f"{program}, an input that fails after {len(file)}", (got.returncode, got.stdout, got.stderr), (0, out, said or b"%d read failed\n" % whole))


def mapped(file, least):
    """A descriptor from which so many bytes are read, up to a page, and then a read fails: this process's memory, where a page is missing."""
    size = -(-least // mmap.PAGESIZE) * mmap.PAGESIZE
    libc = ctypes.CDLL(None, use_errno=True)
    libc.mmap.restype = ctypes.c_void_p
    libc.mmap.argtypes = [ctypes.c_void_p, ctypes.c_size_t, ctypes.c_int, ctypes.c_int, ctypes.c_int, ctypes.c_long]
    libc.munmap.argtypes = [ctypes.c_void_p, ctypes.c_size_t]
    start = libc.mmap(None, size + mmap.PAGESIZE, mmap.PROT_READ | mmap.PROT_WRITE, mmap.MAP_PRIVATE | mmap.MAP_ANONYMOUS, -1, 0)
    file = file[:size]
    ctypes.memmove(start, file, size)
    if libc.munmap(start + size, mmap.PAGESIZE):
        raise OSError(ctypes.get_errno(), "munmap")
    fd = os.open("/proc/self/mem", os.O_RDONLY)
    os.lseek(fd, start, os.SEEK_SET)
    return fd, file


def failed_writes(program, folder):
    good = records(program, 600)
    out, _ = expected(program, b"".join(good))
    files = {"good": b"".join(good), "refused": b"".join(good) + record(program, 1), "empty": b""}
    for name, file in files.items():
        with open(os.path.join(folder, name), "wb") as made:
            made.write(file)

    def told_of(name, what, wanted, **how):
        with open(os.path.join(folder, name), "rb") as stdin:
            told(program, what, wanted, stdin=stdin, **how)

    with open("/dev/full", "wb") as full:
        told_of("good", "a full disk", (0, b"0 write failed\n"), stdout=full)
        with open(os.path.join(folder, "refused"), "rb") as stdin:  # there is nobody to tell
            got = subprocess.run(command(program), stdin=stdin, stdout=subprocess.PIPE, stderr=full)
        same(f"{program}, nothing can be told", (got.returncode, got.stdout), (0, out))
    told_of("good", "no output", (0, b"0 write failed\nclose failed\n"), preexec_fn=lambda: os.close(1))
    told_of("empty", "no output, and nothing to write", (0, b"close failed\n"), preexec_fn=lambda: os.close(1))
    reads, writes = os.pipe()
    os.close(reads)
    told_of("good", "a pipe that is closed", (0, b"0 write failed\n"), stdout=writes)
    told_of("good", "the same, its signal ignored", (0, b"0 write failed\n"), stdout=writes, restore_signals=False)
    os.close(writes)
    batch = len(out) // 600 * BATCH

    def small():
        signal.signal(signal.SIGXFSZ, signal.SIG_IGN)
        resource.setrlimit(resource.RLIMIT_FSIZE, (batch + 1000, batch + 1000))

    with open(os.path.join(folder, "output"), "w+b") as small_file:
        told_of("good", "a file that may not grow", (0, b"%d write failed\n" % BATCH), stdout=small_file, preexec_fn=small)
        small_file.seek(0)
        same(f"{program}, a file that may not grow", (small_file.read(),), (out[: batch + 1000],))


def main():
    with tempfile.TemporaryDirectory() as folder:
        for program in WAYS:
            whole_files(program)
            cut_files(program)
            changed_bytes(program)
            random_files(program)
            all_in_pieces(program)
            stopped_write(program)
            failed_reads(program, folder)
            failed_writes(program, folder)
        a_million(folder)
    print(f"register_up and register_down: {held:,} answers as they should be")


main()
