"""exchange.py TOOL: exchanges AGS1 files between the tool and ags1.py, both ways, and counts where they agree.

Run it by tools/exchange-files, in the folder of the repository.
"""
import itertools
import pathlib
import random
import re
import subprocess
import sys
import tempfile

import ags1

BLOCK_SIZES = (1, 4, 16, 1_000, 1_048_576)
DEFAULT_BLOCK_SIZE = 1_048_576
KEY_LENGTHS = (16, 24, 32)
PREFIX_LENGTHS = (0, 5, 64)
# counts that carry over one byte and over four bytes, and a plain one
NONCE_STARTS = ("00000000000000000000fffe", "c0ffee0000000000fffffffe", "0102030405060708090a0b0c")
REPORT = re.compile(r"code (\d+) \w+, layer \w+, position (\d+)")


class Tally:
    """How often things of each kind were tried; what differed."""

    def __init__(self):
        self.counts, self.differing = {}, []

    def check(self, kind, what, agrees):
        self.counts[kind] = self.counts.get(kind, 0) + 1
        if not agrees:
            self.differing.append(f"{kind}: {what}")


class Answer:
    """What a run of the tool gave: its status, what it printed, and OUT (None where there is none)."""

    def __init__(self, status, stdout, stderr, out):
        self.status, self.stdout, self.stderr, self.out = status, stdout, stderr, out

    def gives(self, expected):
        return self.status == 0 and self.out == expected

    def refuses(self):
        return self.status == 1 and self.out is None


class Tool:
    """The tool, run on files in a folder of its own."""

    def __init__(self, path, folder):
        self.path, self.folder, self.runs = path, folder, 0

    def run(self, command, options, file, out=True):
        """Runs a command on a file of these bytes. Of the options those that are None are left out."""
        (self.folder / "in").write_bytes(file)
        out_path = self.folder / "out"
        out_path.unlink(missing_ok=True)
        words = [self.path, command]
        for name, value in options.items():
            if name == "--key-file":
                (self.folder / "key").write_bytes(value)
                value = self.folder / "key"
            if value is not None:
                words += [name, str(value)]
        words += [str(self.folder / "in")] + ([str(out_path)] if out else [])
        self.runs += 1
        run = subprocess.run(words, capture_output=True, text=True, errors="replace")
        made = out_path.read_bytes() if out_path.exists() else None
        return Answer(run.returncode, run.stdout, run.stderr, made)

    def seal(self, how, nonce_start, plaintext):
        return self.run("seal", {**how.options(), "--nonce-start": nonce_start}, plaintext)

    def open(self, how, file, span=None):
        return self.run("open", {**how.options(), "--range": span and f"{span[0]}..{span[1]}"}, file)

    def inspect(self, block_size, file):
        return self.run("inspect", {"--block-size": block_size}, file, out=False)


class How:
    """Key, AAD prefix and block size of a file."""

    def __init__(self, key, prefix, block_size):
        self.key, self.prefix, self.block_size = key, prefix, block_size

    def options(self):
        """For the tool: no prefix where it is empty, no block size where it is the default."""
        return {
            "--key-file": self.key,
            "--prefix": self.prefix.hex() or None,
            "--block-size": None if self.block_size == DEFAULT_BLOCK_SIZE else self.block_size,
        }

    def seal(self, nonces, plaintext):
        return ags1.seal(self.key, self.prefix, self.block_size, nonces, plaintext)

    def open(self, file, span=None):
        return ags1.open_range(self.key, self.prefix, self.block_size, file, *(span or ()))

    def __str__(self):
        return f"{len(self.key)} bytes of key, {len(self.prefix)} of prefix, blocks of {self.block_size}"


def keys_and_prefixes(rng):
    """Keys and prefixes of every length, in turn, for ever."""
    for key, prefix in itertools.cycle(itertools.product(KEY_LENGTHS, PREFIX_LENGTHS)):
        yield rng.randbytes(key), rng.randbytes(prefix)


def lengths(block_size):
    """Plaintext lengths about the block borders, and one of many blocks where blocks are small."""
    near = {k * block_size + more for k in range(4) for more in (-1, 0, 1)}
    many = {300 * block_size + block_size // 2} if block_size <= 16 else set()
    return sorted(length for length in near | many if length >= 0)


def spans(length, block_size):
    """Two ranges of a plaintext: one over a block border, and one to the end, which is empty where there is no border."""
    border = length // block_size // 2 * block_size or min(block_size, length)
    yield max(border - 1, 0), min(border + 1, length)
    yield max(length - block_size - 1, 0) if length > block_size else length, length


def exchange(tool, tally, rng, keys, block_size):
    """Files of many lengths, sealed by one and opened by the other."""
    for length, nonce_start in zip(lengths(block_size), itertools.cycle(NONCE_STARTS)):
        how = How(*next(keys), block_size)
        what = f"{length} bytes, {how}"
        plaintext = rng.randbytes(length)
        answer = tool.seal(how, nonce_start, plaintext)
        expected = how.seal(ags1.counted(bytes.fromhex(nonce_start)), plaintext)
        tally.check("sealed alike", what, answer.gives(expected))
        tally.check("sealed by the tool, opened by python", what, opened(how, answer.out) == plaintext)

        file = how.seal((rng.randbytes(12) for _ in itertools.count()), plaintext)
        tally.check("sealed by python, opened by the tool", what, tool.open(how, file).gives(plaintext))
        for start, end in spans(length, block_size):
            agrees = tool.open(how, file, (start, end)).gives(plaintext[start:end])
            tally.check("ranges opened by the tool", f"{start}..{end} of {what}", agrees)


def opened(how, file, span=None):
    """What python opens a file to: its plaintext, or the refusal; None where there is no file."""
    try:
        return None if file is None else how.open(file, span)
    except ags1.Refused as refusal:
        return refusal


def sealed(how, nonces, plaintext):
    """What python seals a plaintext to: the file, or the refusal."""
    try:
        return how.seal(nonces, plaintext)
    except ags1.Refused as refusal:
        return refusal


def changed(rng, how, file):
    """A file of at least three blocks changed in many ways: what was done, with which key and prefix it is read, and the file."""
    full = how.block_size + ags1.FRAME
    blocks = [file[place : place + full] for place in range(ags1.HEADER, len(file), full)]
    for block in (0, 1, len(blocks) - 1):
        place = ags1.HEADER + block * full
        parts = {"nonce": place, "ciphertext": place + 12, "tag": place + len(blocks[block]) - 1}
        for part, at in parts.items():
            damaged = bytearray(file)
            damaged[at] ^= 1 << rng.randrange(8)
            yield f"{part} of block {block} changed", how, bytes(damaged)
    blocks[0], blocks[1] = blocks[1], blocks[0]
    yield "two blocks swapped", how, file[: ags1.HEADER] + b"".join(blocks)
    yield "a byte added", how, file + b"\0"
    yield "another prefix", How(how.key, how.prefix[:-1] + b"?", how.block_size), file
    yield "another key", How(rng.randbytes(len(how.key)), how.prefix, how.block_size), file


def damage(tool, tally, rng, keys, block_size):
    """Damaged files, which both have to refuse, and cut ones, of which both have to make the same."""
    how = How(*next(keys), block_size)
    plaintext = rng.randbytes(2 * block_size + (block_size + 1) // 2)
    file = how.seal(ags1.counted(bytes(12)), plaintext)
    for what, reads_as, damaged in changed(rng, how, file):
        expected, answer = opened(reads_as, damaged), tool.open(reads_as, damaged)
        what = f"{what}, {how}"
        tally.check("damaged files refused by python", what, isinstance(expected, ags1.Refused))
        tally.check("damaged files refused by the tool", what, answer.refuses())
        compare_reports(tally, what, expected, answer)
    for length in cuts(block_size, len(file)):
        expected, answer = opened(how, file[:length]), tool.open(how, file[:length])
        what = f"{length} bytes of {len(file)}, {how}"
        if isinstance(expected, ags1.Refused):
            tally.check("cut files refused by both", what, answer.refuses())
        else:
            tally.check("cut files opened alike", what, answer.gives(expected) and plaintext.startswith(expected))
        compare_reports(tally, what, expected, answer)


def cuts(block_size, length):
    """Lengths to cut a file to. Where a block border is among them nothing is missed, since the format does not tell."""
    full = block_size + ags1.FRAME
    places = {0, 7, length - 2, length - 1}
    places |= {ags1.HEADER + start + more for start in (0, full) for more in (0, 1, 27, 28, 29, full - 1)}
    return sorted(places)


def compare_reports(tally, what, expected, answer):
    """Where python refuses and the tool prints the report of an error, its code and position have to be python's."""
    report = REPORT.search(answer.stderr)
    if report and isinstance(expected, ags1.Refused):
        agrees = tuple(map(int, report.groups())) == (expected.code, expected.position)
        tally.check("reports alike", f"{what}: {report[0]}", agrees)


def refusals(tool, tally, rng):
    """What both refuse of whole files: ranges that are reversed or pass the end, and a count of nonces that ends."""
    how = How(rng.randbytes(16), b"cargo", 4)
    plaintext = rng.randbytes(10)
    file = how.seal(ags1.counted(bytes(12)), plaintext)
    for span in ((3, 2), (0, 11), (10, 11), (11, 10)):
        expected, answer = opened(how, file, span), tool.open(how, file, span)
        what = f"{span[0]}..{span[1]} of 10 bytes"
        tally.check("ranges refused by both", what, isinstance(expected, ags1.Refused) and answer.refuses())
        compare_reports(tally, what, expected, answer)
    for length in (8, 9):
        what = f"{length} bytes in blocks of 4, two nonces left"
        start = "01020304fffffffffffffffe"
        expected = sealed(how, ags1.counted(bytes.fromhex(start)), plaintext[:length])
        answer = tool.seal(how, start, plaintext[:length])
        refused = isinstance(expected, ags1.Refused)
        tally.check("last nonces", what, answer.refuses() if refused else answer.gives(expected))
        compare_reports(tally, what, expected, answer)
    for what, other in (
        ("a key of 20 bytes", How(bytes(20), b"", 4)),
        ("a prefix of 65 bytes", How(bytes(16), bytes(65), 4)),
        ("blocks of 0 bytes", How(bytes(16), b"", 0)),
    ):
        tally.check("settings refused by the tool", f"seal, {what}", tool.seal(other, "0" * 24, plaintext).refuses())
        tally.check("settings refused by the tool", f"open, {what}", tool.open(other, file).refuses())


def inspections(tool, tally, rng, keys):
    """The tool says of a file how many plaintext bytes and blocks it has."""
    for block_size, length in itertools.product((4, 1_000), (0, 1_000, 3_001)):
        how = How(*next(keys), block_size)
        file = how.seal(ags1.counted(bytes(12)), rng.randbytes(length))
        answer = tool.inspect(block_size, file)
        numbers = {int(number) for number in re.findall(r"\d+", answer.stdout)}
        agrees = answer.status == 0 and set(ags1.measured(len(file), block_size)) <= numbers
        tally.check("files inspected", f"{length} bytes, {how}", agrees)
    tally.check("files inspected", "35 bytes, which are no file", tool.inspect(4, bytes(35)).status == 1)


def documented(tally):
    """The example of docs/FORMAT.md is what python seals."""
    rows = re.findall(r"^\| \d+ to \d+ \| ([0-9a-f ]+) \|", pathlib.Path("docs/FORMAT.md").read_text(), re.MULTILINE)
    how = How(bytes(range(16)), b"cargo", 4)
    file = how.seal(ags1.counted(bytes(12)), b"CARGO-LIST")
    tally.check("python as documented", "the example", bytes.fromhex("".join(rows)) == file)
    tally.check("python as documented", "the example read", how.open(file, (3, 9)) == b"GO-LIS")


def listed_plaintext(seed, length):
    """The plaintext of a file in the list: byte k is 31 k + 7 (k div 256) + 13 (k div 65536) + seed, mod 256."""
    rows = [bytes((31 * k + row) % 256 for k in range(256)) for row in range(256)]
    parts = (rows[(7 * part + 13 * (part >> 8) + seed) % 256] for part in range(length // 256 + 1))
    return b"".join(parts)[:length]


def of_the_rust(tally):
    """The closed files of the Rust's list come out the same when python seals them with their nonces."""
    path = pathlib.Path("crates/replay_files/stdin")
    for line in path.read_text().splitlines() if path.exists() else ():
        kind, *fields = line.split(" ")
        if kind != "file":
            continue
        key, prefix, seed, room, calls, results, length, _, nonces, tags = fields
        *writes, last = calls.split(",")
        if last != "c" or "c" in writes or set(results.split(",")) != {"ok"}:
            continue
        how = How(bytes.fromhex(key), bytes.fromhex(prefix.strip("-")), DEFAULT_BLOCK_SIZE)
        plaintext = listed_plaintext(int(seed), sum(map(int, writes)))
        file = how.seal(map(bytes.fromhex, nonces.split(",")), plaintext)
        full = DEFAULT_BLOCK_SIZE + ags1.FRAME
        ends = [*range(ags1.HEADER + full, len(file), full), len(file)]
        made = ",".join(file[end - ags1.TAG : end].hex() for end in ends)
        tally.check("files of the Rust sealed alike by python", f"{calls} by {how}", (str(len(file)), made) == (length, tags))


def main(tool_path):
    tally, rng = Tally(), random.Random(1)
    keys = keys_and_prefixes(rng)
    documented(tally)
    of_the_rust(tally)
    with tempfile.TemporaryDirectory() as folder:
        tool = Tool(tool_path, pathlib.Path(folder))
        for block_size in BLOCK_SIZES:
            exchange(tool, tally, rng, keys, block_size)
            damage(tool, tally, rng, keys, block_size)
        refusals(tool, tally, rng)
        inspections(tool, tally, rng, keys)
    for kind, count in tally.counts.items():
        print(f"{count:5} {kind}")
    print(f"{tool.runs} runs of the tool, {sum(tally.counts.values())} comparisons, {len(tally.differing)} differ")
    for line in tally.differing[:20]:
        print(f"differs: {line}", file=sys.stderr)
    return 1 if tally.differing else 0


if __name__ == "__main__":
    sys.exit(main(sys.argv[1]))
