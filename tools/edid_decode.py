"""Holds the readings of a folder of blocks to edid-decode: timings, texts, range limits and what revision 4 tells, depth, interface, encodings, ratio and
model year, of the first 128 bytes of each file, or video codes and timings of the second 128, a CTA-861 extension."""
import collections
import os
import re
import shutil
import struct
import subprocess

ESTABLISHED = """800x600 60, 800x600 56, 640x480 75, 640x480 72, 640x480 67, 640x480 60, 720x400 88, 720x400 70, 1280x1024 75, 1024x768 75,
1024x768 70, 1024x768 60, 1024x768i 87, 832x624 75, 800x600 75, 800x600 72, 1152x870 75""".split(",")
TEXTS = {"Display Product Name": "name", "Alphanumeric Data String": "text", "Display Product Serial Number": "serial"}
CLASSES = {"GTF": "none", "Secondary GTF": "gtf", "Bare Limits": "other 1", "CVT": "other 4"}
# of revision 4: interfaces and encodings by their codes, and how edid-decode tells of each fact; of a reserved depth it tells nothing
INTERFACES = dict(enumerate(("not defined", "DVI", "HDMI-a", "HDMI-b", "MDDI", "DisplayPort")))
ENCODINGS = {"e0": "RGB 4:4:4", "e1": "RGB 4:4:4, YCrCb 4:4:4", "e2": "RGB 4:4:4, YCrCb 4:2:2", "e3": "RGB 4:4:4, YCrCb 4:4:4, YCrCb 4:2:2"}
TOLD = {
    r"(?:Bits per primary color channel:|Color depth is) (\w+)": "depth",
    r"Unknown interface: (0x..)": "interface",
    r"Digital interface is (not defined)": "interface",
    r"(\S+) interface": "interface",
    r"Supported color formats: (.*)": "encodings",
    r"Aspect ratio: (\S+) \(.*\)": "ratio",
    r"Model year: (\d+)": "model",
}


# the 128 bytes that end there, where edid-decode tells of them, the kinds of facts that are compared, where not all are, and names
Part = collections.namedtuple("Part", "end title kinds facts reading")
BASE = Part(128, "Block 0", None, "timings, texts, ranges and facts of revision 4", "standard reading")
EXTENSION = Part(256, "Block 1, CTA-861", ("video", "detailed"), "video codes and timings", "extension")


def missing():
    """What has to be installed, if anything."""
    return None if shutil.which("edid-decode") else "there is no edid-decode; Debian's package edid-decode has it"


def files_in(folder, stop):
    """The files whose names end in .bin, by their names."""
    files = {}
    for name in sorted(e.name for e in os.scandir(folder) if e.is_file() and e.name.endswith(".bin")):
        with open(os.path.join(folder, name), "rb") as f:
            files[name] = f.read()
    return files or stop(f"{folder} has no file that ends in .bin")


def compare(folder, replay, stop, part):
    """Prints where the two part, file by file; the number of files that part. replay is the words that run the reading, stop ends all with a
    word, part is BASE or EXTENSION."""
    files = {name: file for name, file in files_in(folder, stop).items() if len(file) >= part.end}
    blocks = {name: file[part.end - 128:part.end] for name, file in files.items()}
    frames = b"".join(struct.pack("<H", len(block)) + block for block in blocks.values())
    listings = subprocess.run(replay, input=frames, stdout=subprocess.PIPE, check=True).stdout.decode("ascii").split("--\n")[:-1]
    if len(listings) != len(blocks):
        stop(f"{len(listings)} of {len(blocks)} blocks were answered")
    alike = parting = refused = facts = 0
    for (name, block), listing in zip(blocks.items(), listings):
        ours, theirs = our_facts(listing, block), their_facts(files[name][:part.end], part)
        facts += len(theirs)
        only = [fact for fact in ours if not take(theirs, fact)]
        if listing.startswith("refuse"):
            refused += 1
            print(f"{name}: {listing.strip()}; edid-decode has {len(theirs)} {part.facts}")
        elif only or theirs:
            parting += 1
            print("\n  ".join([name] + [f"{part.reading}: {show(fact)}" for fact in only] + [f"edid-decode: {show(fact)}" for fact in theirs]))
        else:
            alike += 1
    print(f"{len(blocks)} blocks, {facts:,} {part.facts} by edid-decode: {alike} blocks alike, {parting} part, {refused} refused")
    return parting + refused


def show(fact):
    return " ".join(str(word) for word in fact if word != "").encode("unicode_escape").decode("ascii")


def take(facts, wanted):
    """Takes out the first fact that is the wanted one, rates compared to less than 1 Hz; whether there was one."""
    for k, (kind, what, rate) in enumerate(facts):
        if (kind, what) == wanted[:2] and (rate == wanted[2] or rate and wanted[2] and abs(rate - wanted[2]) < 1):
            del facts[k]
            return True
    return False


def our_facts(listing, block):
    """A fact is a kind, what it says, and a rate in Hz or nothing."""
    facts = []
    for kind, *words in (line.split() for line in listing.splitlines()):
        if kind == "established":
            for k in words:
                size, rate = ESTABLISHED[int(k)].split()
                facts.append((kind, size, float(rate)))
        elif kind == "standard":
            width, across, down, rate, _ = map(int, words)
            facts.append((kind, f"{width}x{width * down // across}", float(rate)))
        elif kind == "detailed":
            facts.append((kind, our_timing(*map(int, words[:18])), ""))
        elif kind == "video":
            facts += (("video", our_code(int(word)), "") for word in words)
        elif kind in TEXTS.values():
            start, length, _ = map(int, words)
            facts.append((kind, block[start:start + length].decode("latin-1"), ""))
        elif kind == "range":
            low, high, low_line, high_line, clock = map(int, words[:5])
            limit = " ".join(words[5:7]) if words[5] == "other" else words[5]
            facts.append((kind, f"{low}-{high} Hz {low_line // 1000}-{high_line // 1000} kHz {clock // 10**6} MHz {limit}", ""))
        else:
            facts += ((what, word, "") for what, word in our_newer(kind, words))
    return facts


def our_newer(kind, words):
    """What a line tells that only revision 4 has."""
    if kind == "digital" and len(words) == 2:
        depth, code = words[0], int(words[1])
        return [("depth", depth)] * (depth != "reserved") + [("interface", INTERFACES.get(code, f"0x{code:02x}"))]
    if kind == "dpms" and words[3] in ENCODINGS:
        return [("encodings", ENCODINGS[words[3]])]
    if kind == "size" and words[0] == "ratio":
        return [("ratio", f"{int(words[1]) / int(words[2]):.2f}")]
    return [("model", words[6])] if kind == "product" and words[5] == "model" else []


def our_code(byte):
    """A code of 1 to 64 with the top digit is marked as native."""
    return f"{byte - 128} native" if 128 < byte <= 192 else str(byte)


def our_timing(clock, width, height, hfront, vfront, hsync, vsync, hback, vback, wide, high, hborder, vborder, interlaced, stereo, kind, one, two):
    polarity = {2: "-+"[two], 3: "-+"[one] + "-+"[two]}.get(kind, "")
    size = f"{wide}x{high} mm" if wide or high else ""
    return f"{width}x{height}{'i' * interlaced} {clock // 1000} kHz {hfront} {hsync} {hback} {vfront} {vsync} {vback} {size} {polarity}"


def their_facts(file, part):
    text = subprocess.run(["edid-decode", "-s", "-"], input=file, stdout=subprocess.PIPE, stderr=subprocess.DEVNULL).stdout.decode("latin-1")
    facts, section, timing = [], "", None
    for line in f"\n{text}".partition(f"\n{part.title}")[2].partition("\n----")[0].splitlines():
        if re.match(r" {2}\S", line):
            section = line.strip()
        if found := re.match(r" +DTD +\d+: +(\d+x\d+i?) .* (\d+)\.(\d{6}) MHz(.*)", line):
            size = re.search(r"(\d+) mm x (\d+) mm", found[4])
            timing = [found[1], f"{found[2]}{found[3][:3]} kHz", f"{size[1]}x{size[2]} mm" if size else ""]
        elif timing and (found := re.match(r" +Hfront +(-?\d+) Hsync +(\d+) Hback +(-?\d+)(?: Hpol ([PN]))?", line)):
            timing[2:2], across = found.group(1, 2, 3), sign(found[4])
        elif timing and (found := re.match(r" +Vfront +(-?\d+) Vsync +(\d+) Vback +(-?\d+)(?: Vpol ([PN]))?", line)):
            timing[5:5] = found.group(1, 2, 3)
            facts.append(("detailed", " ".join(timing) + f" {across}{sign(found[4])}", ""))
            timing = None
        elif section == "Video Data Block:" and (found := re.match(r" +(?:VIC +(\d+):.*?|Unknown \(VIC +(\d+)\))( \(native\))?$", line)):
            facts.append(("video", (found[1] or found[2]) + " native" * bool(found[3]), ""))
        elif found := re.match(r" +[^:]+: +(\d+x\d+i?) +(\d+\.\d+) Hz ", line):
            kind = "established" if section == "Established Timings I & II:" else "standard"
            facts.append((kind, found[1], float(found[2])))
        elif found := re.match(r" +([^:]+): '(.*)'$", line):
            facts.append((TEXTS.get(found[1], found[1]), found[2], ""))
        elif found := re.match(r" +Monitor ranges \((.*)\): (\d+-\d+) Hz V, (\d+-\d+) kHz H(?:, max dotclock (\d+) MHz)?", line):
            facts.append(("range", f"{found[2]} Hz {found[3]} kHz {found[4] or 0} MHz {CLASSES.get(found[1], found[1])}", ""))
        else:
            facts += ((kind, found[1], "") for told, kind in TOLD.items() if (found := re.fullmatch(told, line.strip())))
    return [fact for fact in facts if not part.kinds or fact[0] in part.kinds]


def sign(letter):
    return {"P": "+", "N": "-", None: ""}[letter]
