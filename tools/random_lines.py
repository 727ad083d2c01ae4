"""Random programs of the line language (rust/line-program/LINES.md): some sets have so many descriptors that a pool has room for
few, and some programs end in a faulty line. `corrupt` puts something wrong or odd into one: faulty lines, lines
about as long as a line may be, other ends of lines, bytes that are no text, a cut. A seed gives the same programs."""
import random

KINDS = """
    sampler combined_image_sampler sampled_image storage_image uniform_texel_buffer
    storage_texel_buffer uniform_buffer storage_buffer uniform_buffer_dynamic
    storage_buffer_dynamic input_attachment acceleration_structure
    inline_uniform_block_bytes inline_uniform_block_bindings
""".split()
# Counts so great that a pool has room for one to a hundred sets.
GREATEST = [2**32 - 1, 2**31, 2**31 - 1, 2**32 // 3, 2**32 // 64, 2**32 // 100]
ANSWERS = ["ok", "ok", "ok", "device", "host", "frag", "pool", "pool"]
LIMITS = [0, 10, 64, 128, 384, 768, 1000, 5000, 100000, 2**32 - 1]
# Lines at which a run ends.
FAULTS = ["pool s", "limit 5", "free 1-2-3", "script OK", "alloc nobody 1", "size a 0 x"]

# Of corrupt programs: the words of a line, which may not fit, and how long a line may be.
COMMANDS = "limit layout size script alloc free cleanup show # hide Alloc".split()
WORDS = """
    a b c nobody plain mark ok device host frag pool OK sampler sampler=1 sampler=0 sampler=4294967296 =1
    sampler= sampler=1=2 storage_buffer=7 0 1 2 3 00007 63 64 65 4294967295 4294967296 1000000 1000001
    18446744073709551615 18446744073709551616 000000000000000000001 -1 +1 0-1 1-0 0-0 1- -2 1-2-3 0-5000
    0x1 1_000 x-y abcdefghijklmnopqrstuvwxyzabcdef abcdefghijklmnopqrstuvwxyzabcdefg \u00e9 \x00
""".split()
LONGEST = 4096


class Program:
    """A program as it grows. Tickets are guessed as if each request were met."""

    def __init__(self, seed):
        self.random = random.Random(seed)
        self.lines, self.names, self.bodies, self.tickets, self.out = [], [], [], 0, []

    def counts(self):
        """The words for the counts of a layout."""
        pick = self.random
        if pick.random() < 0.06:
            return []
        if pick.random() < 0.2:
            return [f"{pick.choice(KINDS[:8])}={pick.choice([1, 2, 6])}"]
        if pick.random() < 0.12:
            return [f"{pick.choice(KINDS)}={pick.choice(GREATEST)}"]
        return [f"{kind}={pick.randint(1, 6)}" for kind in pick.sample(KINDS, pick.randint(1, 4))]

    def layout(self):
        """A new layout, or an old one's counts under a new name."""
        pick = self.random
        if self.bodies and pick.random() < 0.15:
            body = pick.choice(self.bodies)
        else:
            mark = pick.random() < 0.4
            body = " ".join(["mark" if mark else "plain", *self.counts()])
        self.bodies.append(body)
        self.names.append(f"{chr(97 + len(self.names) % 26)}{len(self.names) // 26 or ''}")
        self.lines.append(f"layout {self.names[-1]} {body}")

    def alloc(self):
        pick = self.random
        # Also as many as fill a new pool, and with it some limits.
        sizes = {(0, 0): 3, (64, 64): 10, (1, 9): 37, (1, 70): 30, (1, 700): 17, (1000, 5000): 3}
        count = pick.randint(*pick.choices(list(sizes), sizes.values())[0])
        self.lines.append(f"alloc {pick.choice(self.names)} {count}")
        self.out += range(self.tickets, self.tickets + count)
        self.tickets += count

    def free(self):
        """Tickets that may be held: neighbours mostly, some in a mixed order."""
        pick, out = self.random, self.out
        if not out:
            return self.alloc()
        words = []
        for _ in range(pick.choice([1, 1, 1, 2, 3, 6])):
            if not out:
                break
            first = pick.randrange(len(out))
            last = first
            longest = pick.choice([1, 1, 5, 64, 5000])
            while last + 1 < len(out) and out[last + 1] == out[last] + 1 and last - first < longest:
                last += 1
            ends = [out[first], out[last]]
            del out[first : last + 1]
            pick.shuffle(ends)
            words.append("-".join(map(str, ends[: 1 + (first != last)])))
        if pick.random() < 0.04:
            words.append(str(pick.randint(0, self.tickets + 3)))
        self.lines.append(" ".join(["free", *words]))

    def free_all(self):
        """Frees what may be held, a hundred stretches a line, and the pools are cleaned up."""
        ends = set(self.out)
        firsts = [ticket for ticket in self.out if ticket - 1 not in ends]
        lasts = [ticket for ticket in self.out if ticket + 1 not in ends]
        words = [f"{first}-{last}" for first, last in zip(firsts, lasts)]
        for place in range(0, len(words), 100):
            self.lines.append(" ".join(["free", *words[place : place + 100]]))
        self.lines += ["cleanup", "show"]
        self.out = []

    def script(self):
        words = [self.random.choice(ANSWERS) for _ in range(self.random.choice([0, 1, 1, 2, 3, 5]))]
        self.lines.append(" ".join(["script", *words]))

    def size(self):
        pick = self.random
        total = pick.choice([0, 1, 65, 300, 2**40])
        wanted = pick.choice([0, 1, 65, 513, 2**32 - 1])
        self.lines.append(f"size {pick.choice(self.names)} {total} {wanted}")

    def other(self):
        self.lines.append(self.random.choice(["cleanup", "cleanup", "show", "# a note", ""]))

    def text(self):
        pick = self.random
        if pick.random() < 0.3:
            self.lines.append(f"limit {pick.choice(LIMITS)}")
        for _ in range(pick.randint(1, 4)):
            self.layout()
        scripted = pick.random() < 0.5
        steps = [self.alloc] * 9 + [self.free] * 7 + [self.other] * 3 + [self.size, self.layout]
        steps += [self.script] * 3 if scripted else []
        for _ in range(pick.randint(3, 40)):
            pick.choice(steps)()
            if pick.random() < 0.2:
                self.lines.append("show")
            if pick.random() < 0.03:
                self.free_all()
        self.lines.append("show")
        if pick.random() < 0.05:
            self.lines.append(pick.choice(FAULTS))
        return "".join(f"{line}\n" for line in self.lines)


def corrupt(text, pick):
    """The bytes of a program, corrupted in one to three ways; `pick` is a random.Random."""
    for corruption in pick.choices(CORRUPTIONS, k=pick.randint(1, 3)):
        text = corruption(text, pick)
    return text


def at_a_line(text, pick, line):
    """The line put in at a random place."""
    lines = text.splitlines(keepends=True)
    lines.insert(pick.randint(0, len(lines)), line)
    return b"".join(lines)


def odd_line(text, pick):
    """A command with words that may not fit it."""
    words = [pick.choice(COMMANDS), *pick.choices(WORDS, k=pick.randint(0, 4))]
    return at_a_line(text, pick, " ".join(words).encode() + b"\n")


def long_line(text, pick):
    """A line about as long as a line may be, or much longer."""
    length = LONGEST + pick.choice([-2, -1, 0, 1, 2, 5000, 70000])
    start = pick.choice([b"#", b"alloc a 1", b"free 0", b"free 0 ", b"x", b"show", b"script ok"])
    filling = pick.choice([b" ", b"\t", b"0", b" 1", b" ok", b"#"])
    line = (start + filling * length)[:length]
    return at_a_line(text, pick, line + pick.choice([b"\n", b"\r\n", b"\r\r\n"]))


def other_ends(text, pick):
    """Carriage returns before all or some line feeds, or no line feed at the end."""
    share = pick.choice([0, 0.1, 1])
    lines = text.split(b"\n")
    ends = [pick.choice([b"\r\n", b"\r\n", b"\r\r\n"]) if pick.random() < share else b"\n" for _ in lines]
    return b"".join(line + end for line, end in zip(lines[:-1], ends)).removesuffix(pick.choice([b"", b"\n"]))


def other_spaces(text, pick):
    return text.replace(b" ", pick.choice([b"\t", b"  ", b" \t "]))


def other_bytes(text, pick):
    """Some bytes replaced, put in or taken out."""
    changed = bytearray(text)
    for _ in range(pick.randint(1, 3)):
        place = pick.randrange(len(changed) + 1)
        byte = [pick.choice([0, 9, 10, 13, 32, 45, 48, 57, 61, 127, 128, 255, pick.randrange(256)])]
        changed[place : place + pick.randint(0, 1)] = pick.choice([byte, byte, []])
    return bytes(changed)


def moved_line(text, pick):
    """A line once more, or at another place."""
    lines = text.splitlines(keepends=True) or [b""]
    line = pick.choice(lines)
    if pick.random() < 0.5:
        lines.remove(line)
    return at_a_line(b"".join(lines), pick, line)


def cut(text, pick):
    return text[: pick.randint(0, len(text))]


CORRUPTIONS = [odd_line, odd_line, long_line, other_ends, other_spaces, other_bytes, moved_line, cut]
