"""What each command of sketchd has to write, by its definition alone and in plain Python: the reference of tests/differ.

It shares nothing with the program. MurmurHash3_x64_128 follows Austin Appleby's public code (SMHasher, MurmurHash3.cpp),
ChaCha8 Bernstein's "ChaCha, a variant of Salsa20", the fields of records RFC 4180 and, where that is silent, Rust's
crate csv-core. `check` compares hash and coins with published vectors."""
import bisect, dataclasses, functools, struct

MASK = 2**64 - 1
ITEM_END = 2**63
MOST_LINE = 65_536
MOST_WINDOW = 67_108_864


class Refused(Exception):
    """What ends a command: its status, and its line on standard error."""

    def __init__(self, status, line):
        super().__init__(line)
        self.status, self.line = status, line


# Hashes and coins


def rotated(word, by):
    return (word << by | word >> 64 - by) & MASK


def finished(word):
    word = (word ^ word >> 33) * 0xFF51AFD7ED558CCD & MASK
    word = (word ^ word >> 33) * 0xC4CEB9FE1A85EC53 & MASK
    return word ^ word >> 33


C1, C2 = 0x87C37B91114253D5, 0x4CF5AD432745937F


def mixed(word, first, by, second):
    return rotated(word * first & MASK, by) * second & MASK


def murmur128(seed, text):
    """The two halves of a text's MurmurHash3_x64_128."""
    h1 = h2 = seed
    whole = len(text) // 16 * 16
    for k1, k2 in struct.iter_unpack("<QQ", text[:whole]):
        h1 ^= mixed(k1, C1, 31, C2)
        h1 = ((rotated(h1, 27) + h2) * 5 + 0x52DCE729) & MASK
        h2 ^= mixed(k2, C2, 33, C1)
        h2 = ((rotated(h2, 31) + h1) * 5 + 0x38495AB5) & MASK
    tail = text[whole:]
    h2 ^= mixed(int.from_bytes(tail[8:], "little"), C2, 33, C1) ^ len(text)
    h1 ^= mixed(int.from_bytes(tail[:8], "little"), C1, 31, C2) ^ len(text)
    h1 = (h1 + h2) & MASK
    h2 = (h2 + h1) & MASK
    h1, h2 = finished(h1), finished(h2)
    h1 = (h1 + h2) & MASK
    return h1, (h2 + h1) & MASK


@functools.lru_cache(2**18)
def hash63(seed, text):
    return murmur128(seed, text)[0] >> 1 or 1


def chacha8(key):
    """The words of ChaCha8 from the seed whose first eight bytes are the key, and whose others are 0."""
    count = 0
    while True:
        start = [0x61707865, 0x3320646E, 0x79622D32, 0x6B206574, key & 0xFFFFFFFF, key >> 32, *[0] * 6, count & 0xFFFFFFFF, count >> 32, 0, 0]
        state = list(start)
        for _ in range(4):
            for a, b, c, d in ((0, 4, 8, 12), (1, 5, 9, 13), (2, 6, 10, 14), (3, 7, 11, 15), (0, 5, 10, 15), (1, 6, 11, 12), (2, 7, 8, 13), (3, 4, 9, 14)):
                for to, other, into, by in ((a, b, d, 16), (c, d, b, 12), (a, b, d, 8), (c, d, b, 7)):
                    state[to] = state[to] + state[other] & 0xFFFFFFFF
                    word = state[into] ^ state[to]
                    state[into] = (word << by | word >> 32 - by) & 0xFFFFFFFF
        yield from (a + b & 0xFFFFFFFF for a, b in zip(state, start))
        count += 1


def check():
    """Compares the hash with the vectors of SMHasher, its verification value over 256 keys among them, and of the Go
    package murmur3, and the coins with the vector of a key of zeros in the ChaCha draft of Strombergson."""
    keys = [struct.pack("<QQ", *murmur128(256 - n, bytes(range(n)))) for n in range(256)]
    assert murmur128(0, b"".join(keys))[0] & 0xFFFFFFFF == 0x6384BA69
    assert murmur128(0, b"hello, world") == (0x342FAC623A5EBC8E, 0x4CDCBC079642414D)
    assert murmur128(0x2A, b"hello") == (0xC4B8B3C960AF6F08, 0x2334B875B0EFBC7A)
    words = chacha8(0)
    assert b"".join(struct.pack("<I", next(words)) for _ in range(4)).hex() == "3e00ef2f895f40d67f5bb8e81f09a5a1"


# Words


def read_number(text, below):
    """The number below a bound that these bytes spell with at most the digits of the greatest, or None."""
    if not text or len(text) > len(str(below - 1)) or not all(48 <= byte <= 57 for byte in text):
        return None
    return int(text) if int(text) < below else None


def number(least, most):
    def read(word):
        value = read_number(word.encode(), most + 1)
        return value if value is not None and value >= least else None

    return read


def numbers(least, most, count):
    def read(word):
        values = [number(least, most)(part) for part in word.split(",")]
        return values if len(values) <= count and None not in values else None

    return read


def text_word(word):
    return word or None


def yes_or_no(word):
    return {"yes": True, "no": False}.get(word)


def names(word):
    parts = word.split(",")
    good = len(parts) <= 64 and len(set(parts)) == len(parts) and all(part and " " not in part for part in parts)
    return parts if good else None


FLAG, REQUIRED = "flag", "required"
K, SEED, COLUMN, FILE = (number(2, 1_048_576), 4096), (number(0, 2**32 - 1), 0), (number(1, 4096), None), (text_word, None)
UPDATERS, SIZE, SIZES = (number(1, 64), 1), (number(1, 4096), 64), (numbers(1, 4096, 64), [64])
WINDOW, PROPAGATOR = (number(1, 1_000_000), None), (yes_or_no, True)
ALARM, EAGER, KEY = (numbers(0, 2**48 - 1, 8), None), (yes_or_no, True), (number(0, 2**48 - 1), 0)

# The options of each command: how the value is read, and what stands for one that is not given.
OPTIONS = {
    "count": {"--k": K, "--raw": (FLAG, False), "--seed": SEED, "--csv": COLUMN, "--file": FILE, "--updaters": UPDATERS, "--b": SIZES,
        "--window": WINDOW, "--alarm": ALARM, "--eager": EAGER, "--propagator": PROPAGATOR},
    "hash": {"--seed": SEED, "--file": FILE},
    "image": {"--k": K, "--raw": (FLAG, False), "--seed": SEED, "--csv": COLUMN, "--file": FILE},
    "join": {"--left": (text_word, REQUIRED), "--right": (text_word, REQUIRED), "--image": (FLAG, False)},
    "make": {"--n": (number(0, 10_000_000), REQUIRED), "--key": KEY, "--k": K, "--updaters": UPDATERS, "--b": SIZE, "--propagator": PROPAGATOR},
    "quantile": {"--at": (number(0, 2**48 - 1), REQUIRED), "--k": (number(2, 4096), 128), "--key": KEY, "--file": FILE, "--updaters": UPDATERS,
        "--b": SIZE, "--window": WINDOW, "--propagator": PROPAGATOR},
    "replay": {"--file": FILE},
    "serve": {"--port": (number(1, 65_535), REQUIRED), "--sessions": UPDATERS, "--wave": (number(1, 64), None), "--k": K, "--b": SIZES,
        "--seed": SEED, "--eager": EAGER, "--alarm": ALARM},
    "window": {"--span": (number(1, 2**48 - 1), REQUIRED), "--last": (number(2, 64), REQUIRED), "--k": K, "--b": SIZE, "--seed": SEED, "--file": FILE},
    "tally": {"--rows": (number(1, 16), REQUIRED), "--width": (number(1, 1_048_576), REQUIRED), "--item": (text_word, REQUIRED), "--seed": SEED,
        "--csv": COLUMN, "--file": FILE, "--updaters": UPDATERS, "--b": SIZE, "--window": WINDOW, "--propagator": PROPAGATOR},
    "tenants": {"--names": (names, REQUIRED), "--k": K, "--b": SIZE, "--seed": SEED, "--updaters": UPDATERS, "--file": FILE},
}


class Options:
    def __init__(self, command, values):
        self.command = command
        for name, value in values.items():
            setattr(self, name[2:], value)


def options_of(words):
    """The command and options that the words are, or None if they are no command. Words are bytes; one that is no
    UTF-8 is no command in any place."""
    try:
        words = [word.decode() for word in words]
    except UnicodeDecodeError:
        return None
    known = OPTIONS.get(words[0]) if words else None
    if known is None:
        return None
    values, rest = {}, iter(words[1:])
    for name in rest:
        if name not in known or name in values:
            return None
        read = known[name][0]
        value = True if read == FLAG else read(next(rest, ""))
        if value is None:
            return None
        values[name] = value
    for name, (_, default) in known.items():
        if default == REQUIRED and name not in values:
            return None
        values.setdefault(name, default)
    return Options(words[0], values)


# Lines and records


def lines_of(text):
    """The lines of a text with their numbers. LF ends a line, and one CR directly before it is dropped; a last piece
    without LF is a line as it stands."""
    pieces = text.split(b"\n")
    last = pieces.pop()
    lines = [piece[:-1] if piece.endswith(b"\r") else piece for piece in pieces] + ([last] if last else [])
    for at, line in enumerate(lines, 1):
        if len(line) > MOST_LINE:
            raise Refused(5, f"line {at}: too long")
        yield at, line


def records_of(text):
    """The records of comma-separated values, each a list of fields. LF, CR or both end a record, and a blank line is none."""
    if text.startswith(b"\xef\xbb\xbf"):
        text = text[3:]
    record, field, state = [], bytearray(), "record"
    for byte in text:
        char = bytes([byte])
        if state == "record" and char in b"\r\n":
            continue
        if state in ("record", "field") and char == b'"':
            state = "quoted"
        elif state == "quoted":
            if char == b'"':
                state = "quote"
            else:
                field += char
        elif state == "quote" and char == b'"':
            field += char
            state = "quoted"
        elif char == b",":
            record.append(bytes(field))
            field, state = bytearray(), "field"
        elif char in b"\r\n":
            yield [*record, bytes(field)]
            record, field, state = [], bytearray(), "record"
        else:
            field += char
            state = "plain"
    if state != "record":
        yield [*record, bytes(field)]


def fields_of(text, column):
    """The fields of a column with the numbers of their records."""
    width = None
    for at, record in enumerate(records_of(text), 1):
        width = width or len(record)
        if len(record) != width or column > width:
            raise Refused(12, f"record {at}: bad csv")
        field = record[column - 1]
        if len(field) > MOST_LINE:
            raise Refused(5, f"line {at}: too long")
        yield at, field


def units_of(options, text):
    """The lines, or the fields that stand for them, and for each its item, or None if it is empty."""
    column = getattr(options, "csv", None)
    raw = options.command == "quantile" or getattr(options, "raw", False)
    for at, unit in fields_of(text, column) if column else lines_of(text):
        item = None
        if unit and raw:
            value = read_number(unit, ITEM_END - 1)
            if value is None:
                raise Refused(6, f"{'record' if column else 'line'} {at}: not a number")
            item = value + 1
        elif unit:
            item = hash63(options.seed, unit)
        yield at, unit, item


# Sketches, each with the list that it is of


class Smallest:
    """The k smallest distinct items."""

    def __init__(self, k):
        self.k, self.kept = k, []

    def add(self, item):
        at = bisect.bisect_left(self.kept, item)
        if at < self.k and (at == len(self.kept) or self.kept[at] != item):
            self.kept.insert(at, item)
            del self.kept[self.k :]

    def hint(self):
        return self.kept[-1] if len(self.kept) == self.k else ITEM_END

    def keeps(self, hint, item):
        return item < hint

    def is_early(self, hint):
        return hint == ITEM_END

    def fraction(self):
        return fraction(self.k, self.kept)


def smallest(k, items):
    return sorted(set(items))[:k]


def fraction(k, kept, end=ITEM_END):
    """The estimate of the k smallest items, given those that are kept."""
    return (len(kept), 1) if len(kept) < k else ((k - 1) * end, kept[-1])


class Everything:
    """What sketches that keep every item have in common: they filter none, and none is early."""

    def hint(self):
        return 1

    def keeps(self, hint, item):
        return True

    def is_early(self, hint):
        return False


class Quantiles(Everything):
    """The mergeable quantiles sketch with its coins."""

    def __init__(self, k, key):
        self.k, self.coins, self.base, self.levels, self.count = k, chacha8(key), [], {}, 0

    def add(self, item):
        self.count += 1
        self.base.append(item)
        if len(self.base) == 2 * self.k:
            items, level, self.base = sorted(self.base), 0, []
            while True:
                taken, level = items[next(self.coins) & 1 :: 2], level + 1
                if level not in self.levels:
                    self.levels[level] = taken
                    return
                items = sorted(self.levels.pop(level) + taken)

    def below(self, item):
        return sum(x < item for x in self.base) + sum(2**level * bisect.bisect_left(items, item) for level, items in self.levels.items())


def rank_error(k, count):
    total, weight = 0, 1
    while count >= 2 * k * weight:
        total += weight * (count // (2 * k * weight))
        weight *= 2
    return total


@functools.lru_cache(2**18)
def cell(row, width, item):
    return murmur128(row, struct.pack("<Q", item))[0] % width


# The bits that a row has in the sum of what items weigh in a tally.
ROW_BITS = 48


def weight_in(rows, width, item):
    """What an item weighs in the tally of another: a number that has 1 in the place of each row in which they share a cell."""
    return functools.cache(lambda other: sum((cell(row, width, other) == cell(row, width, item)) << ROW_BITS * row for row in range(rows)))


class Counted(Everything):
    """How many items there are, and what they weigh together: all that a tally is a function of."""

    def __init__(self, weight):
        self.weight, self.count, self.sum = weight, 0, 0

    def add(self, item):
        self.count += 1
        self.sum += self.weight(item)


class Updater:
    """The one updater of a hub that merges what it hands over itself, step by step."""

    def __init__(self, sketch, size, eager):
        self.sketch, self.size, self.eager = sketch, size, eager
        self.word = self.hint = sketch.hint()
        self.fill, self.slot = [], []

    def feed(self, item):
        while (answer := self.update(item)) == "busy":
            self.help()
        if answer == "kept" and self.is_eager():
            self.help()

    def is_eager(self):
        return self.eager and self.sketch.is_early(self.hint)

    def update(self, item):
        if not self.sketch.keeps(self.hint, item):
            return "filtered"
        if len(self.fill) == self.size:
            if not self.hand_over():
                return "busy"
            self.fill = [item]
            return "kept"
        self.fill.append(item)
        if len(self.fill) == self.size or self.is_eager():
            self.hand_over()
        return "kept"

    def hand_over(self):
        """Hands the buffer over if the one before was merged."""
        if self.word == 0:
            return False
        self.hint, self.word = self.word, 0
        self.slot, self.fill = self.fill, []
        return True

    def help(self):
        if self.word == 0:
            for item in self.slot:
                self.sketch.add(item)
            self.slot, self.word = [], self.sketch.hint()


# Lines that are due


@dataclasses.dataclass
class Between:
    """An interim line that the specification bounds on both sides, with what has to follow it."""

    takes: object
    follows: object = lambda line: []


def text_of(n, d):
    return f"estimate {n}/{d}\n"


class Windows:
    """The windows of a text, what each updater was fed of them and what its first items weigh, and the updater whose steps
    are fixed, if there is one."""

    def __init__(self, options, sketch, sizes, weight=lambda item: 0):
        self.options, self.sizes = options, [*sizes, *sizes[-1:] * options.updaters][: options.updaters]
        self.window, self.bytes, self.count = [], 0, 0
        self.shares, self.weight, self.sums = [[] for _ in self.sizes], weight, [[0] for _ in self.sizes]
        fixed = options.window and options.updaters == 1 and not options.propagator
        self.updater = Updater(sketch, self.sizes[0], getattr(options, "eager", False)) if fixed else None

    def add(self, unit, item):
        """Takes a line; whether it fills a window that is reported."""
        self.count += 1
        if not self.options.window:
            return False
        self.window.append(item)
        self.bytes += len(unit)
        if len(self.window) < self.options.window and self.bytes < MOST_WINDOW:
            return False
        count, updaters = len(self.window), self.options.updaters
        for i, share in enumerate(self.shares):
            for item in self.window[i * count // updaters : (i + 1) * count // updaters]:
                if item is not None:
                    share.append(item)
                    self.sums[i].append(self.sums[i][-1] + self.weight(item))
        if self.updater:
            for item in self.window:
                if item is not None:
                    self.updater.feed(item)
        self.window, self.bytes = [], 0
        return True

    def surely_seen(self):
        """Of how many items of each updater an interim list has at least the first, if all are kept: it lacks the last two
        buffers."""
        return [max(0, len(share) - 2 * size) for share, size in zip(self.shares, self.sizes)]

    def all(self):
        return [len(share) for share in self.shares]

    def weighed(self, firsts):
        """How many these first items of each updater are, and what they weigh."""
        return sum(firsts), sum(sums[first] for sums, first in zip(self.sums, firsts))

    def items(self, firsts):
        return {item for share, first in zip(self.shares, firsts) for item in share[:first]}


class Alarms:
    """The marks that are still armed."""

    def __init__(self, marks):
        self.marks = dict(enumerate(marks or [], 1))

    def lines(self, n, d):
        reached = [place for place, mark in self.marks.items() if n >= mark * d]
        for place in reached:
            del self.marks[place]
        return [f"alarm {place}\n" for place in reached]


def fraction_in(line):
    n, _, d = line.split()[-1].partition("/")
    return int(n), int(d)


# Commands. Each appends the lines that are due to a list.


def count(options, text, due):
    windows, alarms, items = Windows(options, Smallest(options.k), options.b), Alarms(options.alarm), []
    before = []
    for _, unit, item in units_of(options, text):
        if item is not None:
            items.append(item)
        if windows.add(unit, item):
            start = f"at {windows.count} "
            if windows.updater:
                n, d = windows.updater.sketch.fraction()
                due += [start + text_of(n, d), *alarms.lines(n, d)]
            else:
                due.append(Between(estimate_between(options, windows, start, before), lambda line: alarms.lines(*fraction_in(line))))
    due.append(text_of(*fraction(options.k, smallest(options.k, items))))


def estimate_between(options, windows, start, before):
    """An estimate of a list that lacks at most the last two buffers of each updater, and is not of an earlier one than
    that before it."""
    k, every, seen = options.k, sorted(windows.items(windows.all())), len(windows.items(windows.surely_seen()))
    missing = 2 * sum(windows.sizes)

    def takes(line):
        if not line.startswith(start + "estimate "):
            return False
        n, d = fraction_in(line)
        if d == 1 and n < k:
            good, rank = min(seen, k) <= n <= len(every) and seen < k, (0, n)
        else:
            at = bisect.bisect_left(every, d)
            good = n == (k - 1) * ITEM_END and k - 1 <= at < min(len(every), k + missing) and every[at] == d
            rank = (1, -d)
        good = good and (not before or before[-1] <= rank)
        before.append(rank)
        return good

    return takes


def hash_lines(options, text, due):
    for _, _, item in units_of(options, text):
        if item is not None:
            due.append(f"{item:016x}\n")


def image_text(version, k, seed, kept):
    digits = {1: 12, 2: 16}[version]
    return "".join([f"theta{version} k={k} seed={seed}\n", *(f"{item:0{digits}x}\n" for item in kept), f"end {len(kept)}\n"])


def image(options, text, due):
    items = [item for _, _, item in units_of(options, text) if item is not None]
    due.append(image_text(2, options.k, options.seed, smallest(options.k, items)))


VERSIONS = {"theta1": (1, 32_768, 12, 0, 2**48), "theta2": (2, 1_048_576, 16, 1, ITEM_END)}


def plain_number(text, below):
    value = read_number(text, below)
    return value if value is not None and str(value).encode() == text else None


def read_image(text, file):
    """The version, k, seed and hashes of an image."""
    *lines, last = text.split(b"\n")
    image, hashes, ended = None, [], False
    for at, line in enumerate(lines, 1):
        bad = Refused(9, f"file {file} line {at}: bad image")
        if ended:
            raise bad
        if image is None:
            image = first_line(line)
            if image is None:
                raise bad
        elif line == b"end %d" % len(hashes):
            ended = True
        else:
            _, k, _, (_, _, digits, start, end) = image
            good = len(line) == digits and all(byte in b"0123456789abcdef" for byte in line) and len(hashes) < k
            value = int(line, 16) if good else -1
            if not start <= value < end or hashes and value <= hashes[-1]:
                raise bad
            hashes.append(value)
    if last or not ended:
        raise Refused(9, f"file {file} line {len(lines) + 1}: bad image")
    return (*image[:3], hashes)


def first_line(line):
    parts = line.split(b" ")
    form = VERSIONS.get(parts[0].decode("latin1"))
    if len(parts) != 3 or not form or not parts[1].startswith(b"k=") or not parts[2].startswith(b"seed="):
        return None
    k, seed = plain_number(parts[1][2:], form[1] + 1), plain_number(parts[2][5:], 2**32)
    return None if k is None or k < 2 or seed is None else (form[0], k, seed, form)


def join(options, files, due):
    images = []
    for place, name in enumerate([options.left, options.right], 1):
        if name not in files:
            raise Refused(8, "open fault")
        images.append(read_image(files[name], place))
    (*left, kept), (*right, others) = images
    if left != right:
        firsts = [f"theta{version} k={k} seed={seed}" for version, k, seed in (left, right)]
        raise Refused(11, f"mixed: {firsts[0]} and {firsts[1]}")
    version, k, seed = left
    both = smallest(k, kept + others)
    due.append(image_text(version, k, seed, both) if options.image else text_of(*fraction(k, both, 2**48 if version == 1 else ITEM_END)))


def made_numbers(count, key):
    words = chacha8(key)
    return [next(words) * 2**16 + (next(words) >> 16) for _ in range(count)]


def make(options, text, due):
    items = [number + 1 for number in made_numbers(options.n, options.key)]
    due += [f"made {options.n}\n", text_of(*fraction(options.k, smallest(options.k, items)))]


def quantile(options, text, due):
    at = options.at + 1
    windows = Windows(options, Quantiles(options.k, options.key), [options.b], lambda item: item < at)
    whole, below, before = Quantiles(options.k, options.key), 0, [0]
    for _, unit, item in units_of(options, text):
        if item is not None:
            below += item < at
            whole.add(item)
        if windows.add(unit, item):
            start = f"at {windows.count} "
            if windows.updater:
                due.append(start + rank_text(options.k, windows.updater.sketch.count, windows.updater.sketch.below(at)))
            else:
                seen, every = windows.weighed(windows.surely_seen()), windows.weighed(windows.all())
                due.append(Between(rank_between(options.k, seen, every, start, before)))
    if options.updaters == 1:
        due.append(rank_text(options.k, whole.count, whole.below(at)))
    else:
        every = (whole.count, below)
        due.append(Between(rank_between(options.k, every, every, "", [0])))


def rank_text(k, count, below):
    return f"n {count} below {below} within {rank_error(k, count)}\n"


def rank_between(k, seen, every, start, before):
    (least, low), (most, high) = seen, every

    def takes(line):
        parts = line[len(start) :].split()
        if not line.startswith(start + "n ") or len(parts) != 6:
            return False
        count, below = int(parts[1]), int(parts[3])
        error = rank_error(k, count)
        good = max(least, before[0]) <= count <= most and low - error <= below <= high + error
        before[0] = count
        return good and line == start + rank_text(k, count, below)

    return takes


def tally(options, text, due):
    weight = weight_in(options.rows, options.width, hash63(options.seed, options.item.encode()))
    windows, whole, before = Windows(options, Counted(weight), [options.b], weight), Counted(weight), [0, 0]
    for _, unit, item in units_of(options, text):
        if item is not None:
            whole.add(item)
        if windows.add(unit, item):
            start = f"at {windows.count} "
            if windows.updater:
                due.append(start + tally_text(options.rows, windows.updater.sketch))
            else:
                seen, every = windows.weighed(windows.surely_seen()), windows.weighed(windows.all())
                due.append(Between(tally_between(options.rows, seen, every, start, before)))
    due.append(tally_text(options.rows, whole))


def times_in(rows, weight):
    """How often the item was there, by the least cell of the rows."""
    return min(weight >> ROW_BITS * row & (1 << ROW_BITS) - 1 for row in range(rows))


def tally_text(rows, counted):
    return f"n {counted.count} item {times_in(rows, counted.sum)}\n"


def tally_between(rows, seen, every, start, before):
    (least, low), (most, high) = ((count, times_in(rows, weight)) for count, weight in (seen, every))

    def takes(line):
        parts = line[len(start) :].split()
        if not line.startswith(start + "n ") or len(parts) != 4 or parts[2] != "item":
            return False
        count, times = int(parts[1]), int(parts[3])
        good = max(least, before[0]) <= count <= most and max(low, before[1]) <= times <= high
        before[:] = [count, times]
        return good

    return takes


def labelled(text):
    """The lines that are not empty, with the word before their first space and what follows it."""
    for at, line in lines_of(text):
        if line:
            label, space, item = line.partition(b" ")
            yield at, label, item if space else b""


def window(options, text, due):
    closed, running, items = {}, 0, []

    def pane():
        closed[running] = items
        kept = [item for c in range(running - options.last + 1, running + 1) for item in closed.get(c, [])]
        due.append(f"pane {running} {text_of(*fraction(options.k, smallest(options.k, kept)))}")

    for at, label, item in labelled(text):
        moment = read_number(label, 2**48)
        if moment is None or not item:
            raise Refused(14, f"line {at}: bad line")
        if moment // options.span < running:
            raise Refused(15, f"line {at}: earlier moment")
        if moment // options.span > running:
            pane()
            running, items = moment // options.span, []
        items.append(hash63(options.seed, item))
    pane()


def tenants(options, text, due):
    items = {name.encode(): [] for name in options.names}
    for at, label, item in labelled(text):
        if not label or not item:
            raise Refused(14, f"line {at}: bad line")
        if label not in items:
            raise Refused(16, f"line {at}: unknown tenant")
        items[label].append(hash63(options.seed, item))
    due += [f"{name} {text_of(*fraction(options.k, smallest(options.k, items[name.encode()])))}" for name in options.names]


# Schedules


class Machine:
    """The machine of all interleavings. Its answers do not depend on what tokens know."""

    def __init__(self, k, sizes):
        self.k, self.sizes, self.count = k, sizes, len(sizes)
        self.hint, self.word = [ITEM_END] * self.count, [ITEM_END] * self.count
        self.fill, self.slot = [[] for _ in sizes], [[] for _ in sizes]
        self.mark, self.stage, self.turn = [""] * self.count, ("idle", None), self.count
        self.published, self.batch, self.tokens, self.kept = [], [], [True], 0

    def step(self, name, args):
        """The answer to an event, or None if it is not enabled."""
        return getattr(self, "on_" + name)(*args)

    def is_admitted(self, i):
        return i < self.count and self.sizes[i] is not None

    def is_live(self, token):
        return token < len(self.tokens) and self.tokens[token]

    def new_token(self):
        self.tokens.append(True)
        return f"token {len(self.tokens) - 1}"

    def on_offer(self, i, item):
        if not self.is_admitted(i) or self.mark[i] == "swapped" or self.kept >= 1_000_000:
            return None
        if item >= self.hint[i]:
            return "filtered"
        if len(self.fill[i]) >= self.sizes[i]:
            return None
        self.fill[i].append(item)
        self.kept += 1
        return "kept"

    def on_look(self, i):
        if not self.is_admitted(i) or self.mark[i] == "swapped":
            return None
        if not self.word[i]:
            return "busy"
        self.hint[i], self.mark[i] = self.word[i], "ready"
        return f"hint {self.hint[i]}"

    def on_swap(self, i):
        if not self.is_admitted(i) or self.mark[i] != "ready" or not self.fill[i]:
            return None
        self.fill[i], self.slot[i], self.mark[i] = self.slot[i], self.fill[i], "swapped"
        return "swapped"

    def on_hand(self, i):
        if not self.is_admitted(i) or self.mark[i] != "swapped":
            return None
        self.word[i], self.mark[i] = 0, ""
        return f"handed {len(self.slot[i])}"

    def on_find(self, i):
        if i >= self.count or self.stage[0] != "idle" or self.turn is None:
            return None
        if self.word[i]:
            return "nothing"
        self.stage = ("found", i)
        return "waiting"

    def on_take(self, i):
        if self.stage != ("found", i):
            return None
        self.batch, self.stage = self.slot[i], ("holding", i)
        return f"took {len(self.batch)}"

    def on_publish(self, i):
        if self.stage != ("holding", i) or self.turn is None:
            return None
        self.published = self.published + self.batch
        self.stage = ("published", i)
        return f"published {len(self.published)}"

    def on_put(self, i):
        if self.stage != ("published", i):
            return None
        self.slot[i], self.stage = [], ("put", i)
        return "put"

    def on_return(self, i):
        if self.stage != ("put", i):
            return None
        kept = smallest(self.k, self.published)
        self.word[i], self.stage = kept[-1] if len(kept) == self.k else ITEM_END, ("idle", None)
        return f"returned {self.word[i]}"

    def on_ask(self, token):
        return text_of(*fraction(self.k, smallest(self.k, self.published))).strip() if self.is_live(token) else None

    def on_split(self, token):
        return self.new_token() if self.is_live(token) and len(self.tokens) < 256 else None

    def on_note(self, i):
        return self.new_token() if self.is_admitted(i) and len(self.tokens) < 256 else None

    def on_join(self, token, other):
        if not self.is_live(token) or not self.is_live(other) or token == other:
            return None
        self.tokens[other] = False
        return "joined"

    def on_turn(self, seat):
        if seat > self.count or self.turn == seat:
            return None
        if self.turn is not None:
            return f"elsewhere {self.turn}"
        self.turn = seat
        return "turned"

    def on_yield(self, seat):
        if self.turn is None or self.turn != seat or self.stage[0] not in ("idle", "holding"):
            return None
        self.turn = None
        return "yielded"

    def on_admit(self, i, size):
        if i >= self.count or self.sizes[i] is not None or not 1 <= size <= 4096:
            return None
        self.sizes[i] = size
        return "admitted"


EVENTS = {"offer": 2, "look": 1, "swap": 1, "hand": 1, "find": 1, "take": 1, "publish": 1, "put": 1, "return": 1, "ask": 1, "split": 1,
    "note": 1, "join": 2, "turn": 1, "yield": 1, "admit": 2}


def fields(line):
    """The first word of a line and its numbers, or None if it is unreadable."""
    name, *words = line.split(b" ")
    args = [read_number(word, ITEM_END) for word in words]
    return None if None in args else (name.decode("latin1"), args)


def machine_of(line):
    read = fields(line)
    match read:
        case ("machine", [k, size, count]) if 2 <= k <= 1_048_576 and 1 <= size <= 4096 and 1 <= count <= 64:
            return Machine(k, [size] * count)
        case ("vacant", [k, count]) if 2 <= k <= 1_048_576 and 1 <= count <= 64:
            return Machine(k, [None] * count)


def replay(options, text, due):
    machine = None
    for at, line in lines_of(text):
        bad = Refused(7, f"line {at}: bad event")
        if at == 1:
            machine = machine_of(line)
            if machine is None:
                raise bad
            continue
        read = fields(line)
        if read is None or EVENTS.get(read[0]) != len(read[1]) or read[0] == "offer" and read[1][1] == 0:
            raise bad
        answer = machine.step(*read)
        if answer is None:
            raise bad
        due.append(answer + "\n")
    if machine is None:
        raise Refused(7, "line 1: bad event")


COMMANDS = {"count": count, "hash": hash_lines, "image": image, "make": make, "quantile": quantile, "replay": replay, "window": window,
    "tally": tally, "tenants": tenants}


def outcome(usage, words, text, files):
    """The status that a run has to end with, the lines that are due on standard output, and standard error. `usage` is the
    line for words that are no command."""
    due, options = [], options_of(words)
    if options is None:
        return 2, due, usage
    try:
        if options.command == "join":
            join(options, files, due)
        else:
            name = getattr(options, "file", None)
            if name is not None and name not in files:
                raise Refused(8, "open fault")
            COMMANDS[options.command](options, text if name is None else files[name], due)
    except Refused as refused:
        return refused.status, due, refused.line + "\n"
    return 0, due, ""


def differs(due, out):
    """What is wrong with a text on standard output, or nothing."""
    lines = iter(out.decode("utf-8", "surrogateescape").splitlines(keepends=True))
    for piece in due:
        if isinstance(piece, str):
            got = "".join(next(lines, "") for _ in range(piece.count("\n")))
            if got != piece:
                return f"{got[:200]!r} in place of {piece[:200]!r}"
        else:
            line = next(lines, "")
            if not piece.takes(line):
                return f"{line!r}, which is out of its bounds"
            for wanted in piece.follows(line):
                if (got := next(lines, "")) != wanted:
                    return f"{got!r} after {line!r} in place of {wanted!r}"
    rest = next(lines, None)
    return "" if rest is None else f"{rest[:200]!r} beyond what is due"
