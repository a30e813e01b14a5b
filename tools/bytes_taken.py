"""How many bytes edid-rs takes of each frame that it accepts, held to what the driver team is told (include/edid.h), counted from the frame's bytes."""
import collections
import subprocess

TEN = {127 - 13 * tens + 5 * longs for tens in range(4) for longs in range(4 - tens)}


def told(frame):
    """127, less 13 for each of the last three slots with tag 10, and 5 more for each with tag fb whose first index is not zero and whose second is."""
    at = 72
    tens = longs = 0
    for _ in range(3):
        timing = (frame[at] or frame[at + 1]) and frame[at + 2]
        ten = not timing and frame[at + 3] == 0x10
        long = not timing and frame[at + 3] == 0xFB and frame[at + 5] != 0 and frame[at + 10] == 0
        at += 5 if ten else 23 if long else 18
        tens += ten
        longs += long
    return 127 - 13 * tens + 5 * longs


def compare(frames, oracle):
    """0 where each accepted frame takes what is told, and each of the ten numbers occurs; else 1, with a word."""
    counts = collections.Counter()
    with open(frames.name, "rb") as asked, open(frames.name, "rb") as read:
        numbers = subprocess.run([oracle, "numbers"], stdin=asked, stdout=subprocess.PIPE, text=True, check=True).stdout
        for line in numbers.splitlines():
            frame = read.read(int.from_bytes(read.read(2), "little"))
            number, taken, _ = map(int, line.split())
            if number == 0 and taken != told(frame):
                print(f"frame {frame.hex()}\nedid-rs takes {taken} bytes, where {told(frame)} are told")
                return 1
            counts[taken] += number == 0
    print("bytes taken where accepted: " + ", ".join(f"{n} {counts[n]:,}" for n in sorted(+counts)))
    if missing := TEN - set(+counts):
        print(f"no frame takes {sorted(missing)}")
    return 1 if missing else 0
