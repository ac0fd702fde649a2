"""What checking a release file, showing an axiom, rewriting a release, writing a page, making a practice release and building a
signature answer by docs/FORMAT.md, which refusal a question, a comparison, a sheet, a concept shown and rows checked meet,
and the role result of a comparison: written apart from the library, to confirm the tables refusals.txt, shows.txt,
rewrites.txt, pages.txt, practices.txt, signatures.txt, questions.txt, comparisons.txt, sheets.txt, concepts.txt and
rowchecks.txt."""
from typing import NamedTuple

KINDS_WITH_NAMES, KINDS_WITH_ROLE = (1, 2), (3, 4)
MOST_ROLES = 32


class Version(NamedTuple):
    """What the versions differ in: how many bytes n, a, names and fillers take, the largest n, ⊤ as a filler, and whether pairs of
    roles stand before the axioms."""
    number: int
    width: int
    most_names: int
    everything: int
    has_pairs: bool

    def header_length(self):
        """Up to a and, where there are pairs, their count."""
        return 6 + 2 * self.width + self.has_pairs


VERSIONS = {1: Version(1, 1, 127, 255, False), 2: Version(2, 2, 1023, 65535, False), 3: Version(3, 2, 1023, 65535, True)}


class Refused(Exception):
    pass


class Reader:
    """The numbers after the header, one at a time: 7 where there is none or half of one, and then its own range."""

    def __init__(self, file, version):
        self.file, self.version, self.at = file, version, version.header_length()

    def number(self, width, refusal, fits):
        if self.at + width > len(self.file):
            raise Refused(7)
        value = int.from_bytes(self.file[self.at:self.at + width], "little")
        self.at += width
        if not fits(value):
            raise Refused(refusal)
        return value

    def byte(self, refusal, fits):
        return self.number(1, refusal, fits)

    def name(self, refusal, fits):
        return self.number(self.version.width, refusal, fits)


def version_of(file):
    if len(file) < 8:
        raise Refused(1)
    if file[:3] != b"ELT":
        raise Refused(2)
    version = VERSIONS.get(file[3] + 256 * file[4])
    if version is None:
        raise Refused(3)
    return version


def header(file):
    """The version, n, m and a."""
    version = version_of(file)
    width = version.width
    if len(file) < version.header_length():
        raise Refused(1)
    n = int.from_bytes(file[5:5 + width], "little")
    m = file[5 + width]
    a = int.from_bytes(file[6 + width:6 + 2 * width], "little")
    for number, holds in ((4, n <= version.most_names), (5, m <= MOST_ROLES), (6, a <= n)):
        if not holds:
            raise Refused(number)
    return version, n, m, a


def axiom(reader, n, m, before):
    """Left name, kind and conjuncts of the next axiom."""
    left = reader.name(9, lambda x: x < n)
    if before is not None and left <= before:
        raise Refused(10)
    kind = reader.byte(8, lambda x: x in KINDS_WITH_NAMES + KINDS_WITH_ROLE)
    conjuncts = []
    if kind in KINDS_WITH_NAMES:
        for _ in range(reader.byte(12, lambda x: x <= 16)):
            name = reader.name(9, lambda x: x < n)
            if conjuncts and name <= conjuncts[-1]:
                raise Refused(13)
            conjuncts.append(name)
    else:
        reader.byte(11, lambda x: x < m)
        reader.name(9, lambda x: x < n or x == reader.version.everything)
    return left, kind, conjuncts


def pairs(reader, m):
    """The pairs of roles, lower and upper, which rise."""
    found = []
    for _ in range(reader.file[reader.at - 1] if reader.version.has_pairs else 0):
        pair = tuple(reader.byte(11, lambda x: x < m) for _ in ("lower", "upper"))
        if found and pair <= found[-1]:
            raise Refused(49)
        found.append(pair)
    return found


def pairs_and_axioms_of(file):
    """n, m, the pairs and the axioms of an accepted file, each axiom with the places where it starts and ends."""
    version, n, m, a = header(file)
    reader, axioms = Reader(file, version), []
    found_pairs = pairs(reader, m)
    for _ in range(a):
        start = reader.at
        found = axiom(reader, n, m, axioms[-1][0] if axioms else None)
        axioms.append((*found, start, reader.at))
    if reader.at < len(file):
        raise Refused(14)
    defined = {left for left, kind, *_ in axioms if kind == 2}
    if any(defined & set(conjuncts) for _, _, conjuncts, *_ in axioms):
        raise Refused(15)
    return n, m, found_pairs, axioms


def axioms_of(file):
    n, m, _, axioms = pairs_and_axioms_of(file)
    return n, m, axioms


def check(file):
    """Number, side, n, m and a, as a case of Check has them."""
    try:
        n, m, axioms = axioms_of(file)
        return 0, 0, n, m, len(axioms)
    except Refused as refused:
        return refused.args[0], 1, 0, 0, 0


def show(first, second, side, name):
    """File, start and length of the part that is shown."""
    try:
        both = axioms_of(first)[2], axioms_of(second)[2]
    except Refused:
        return 1, 0, 0
    for left, _, _, start, end in both[side - 1] if side in (1, 2) else []:
        if left == name:
            return side, start, end - start
    return 1, 0, 0


def rewrite(file, wanted, length):
    """Number, side and the output where the release is rewritten as version `wanted` into so many bytes."""
    if VERSIONS[wanted].has_pairs:
        return 3, 0, b""
    try:
        if version_of(file).has_pairs:
            raise Refused(3)
        n, m, axioms = axioms_of(file)
    except Refused as refused:
        return refused.args[0], 1, b""
    old, new = header(file)[0], VERSIONS[wanted]
    if n > new.most_names:
        return 40, 1, b""

    def written(number):
        return (new.everything if number == old.everything else number).to_bytes(new.width, "little")

    out = b"ELT" + wanted.to_bytes(2, "little") + written(n) + bytes([m]) + written(len(axioms))
    for left, kind, conjuncts, _, end in axioms:
        out += written(left) + bytes([kind])
        if kind in KINDS_WITH_NAMES:
            out += bytes([len(conjuncts)]) + b"".join(map(written, conjuncts))
        else:
            # A role and a filler are the last bytes of such an axiom.
            filler = int.from_bytes(file[end - old.width:end], "little")
            out += file[end - old.width - 1:end - old.width] + written(filler)
    return (41, 0, b"") if length < len(out) else (0, 0, out)


def page(result):
    """The page of a result, or none where the bytes are no result."""
    if len(result) > 1023 or any(byte > 3 for byte in result):
        return None
    cells = [f"{name:4} {' LRB'[byte]}{'':10}" for name, byte in enumerate(result) if byte]
    lines = ["".join(cells[at:at + 4]).ljust(64) + "\n" for at in range(0, len(cells), 4)]
    return "".join(line + "\f" * (at % 50 == 49) for at, line in enumerate(lines)).encode("ascii")


def practice(seed, n, m, length):
    """Number, side and, of what is not refused, the file."""
    if n > 127 or m > 32:
        return (4 if n > 127 else 5), 0, b""
    state = seed

    def draw(choices):
        nonlocal state
        state = (state * 1664525 + 1013904223) % 2 ** 32
        return (state >> 16) % choices

    kinds = [draw(5) for _ in range(n)]
    if m == 0:
        kinds = [0 if kind in KINDS_WITH_ROLE else kind for kind in kinds]
    pool = [name for name, kind in enumerate(kinds) if kind != 2]
    axioms = []
    for name, kind in enumerate(kinds):
        if kind in KINDS_WITH_ROLE:
            role, filler = draw(m), draw(n + 1)
            axioms.append([name, kind, role, 255 if filler == n else filler])
        elif kind and pool:
            count, start = 1 + draw(min(4, len(pool))), draw(len(pool))
            axioms.append([name, kind, count, *sorted(pool[(start + at) % len(pool)] for at in range(count))])
    file = b"ELT" + bytes([1, 0, n, m, len(axioms)]) + b"".join(map(bytes, axioms))
    return (52, 0, b"") if length < len(file) else (0, 0, file)


def signature(n, m, steps):
    """n and m of the signature that the steps make, and the set of its places that are 1."""
    n, m = min(n, VERSIONS[2].most_names), min(m, MOST_ROLES)
    names = {number for kind, number in steps if kind == "n" and number < n}
    roles = {n + number for kind, number in steps if kind == "r" and number < m}
    return n, m, names | roles


def concept_end(text, at, width, n, m):
    """The place after the concept that starts at `at`; None where none does."""
    kind = text[at] if at < len(text) else None
    if kind == 0:
        return at + 1
    if kind == 1:
        end = at + 1 + width
        return end if end <= len(text) and int.from_bytes(text[at + 1:end], "little") < n else None
    if kind == 2:
        middle = concept_end(text, at + 1, width, n, m)
        return middle and concept_end(text, middle, width, n, m)
    if kind == 3 and at + 1 < len(text) and text[at + 1] < m:
        return concept_end(text, at + 2, width, n, m)
    return None


def question(file, below, above, work):
    """Number and side of the refusal that a question meets; 0 and 0 where it meets none."""
    number, side, n, m, _ = check(file)
    if number:
        return number, side
    width = header(file)[0].width
    for side, text in ((1, below), (2, above)):
        if len(text) > 255 or concept_end(text, 0, width, n, m) != len(text):
            return 19, side
    return (32, 0) if work < 4 * (n + 1) ** 2 else (0, 0)


def agreed(first, second):
    """Number and side of the refusal by the releases of a comparison, and n and m of the first."""
    for side, file in ((1, first), (2, second)):
        number = check(file)[0]
        if number:
            return number, side, 0, 0
    (_, _, n, m, _), other = check(first), check(second)
    return (0, 0, n, m) if (n, m) == other[2:4] else (16, 0, n, m)


def first_of(conditions):
    """The number of the first condition that holds, with side 0."""
    return next(((number, 0) for number, holds in conditions if holds), (0, 0))


def comparison(first, second, signature, result, role_result, work):
    number, side, n, m = agreed(first, second)
    return (number, side) if number else first_of((
        (17, len(signature) != n + m), (18, any(byte > 1 for byte in signature)),
        (31, result < n), (50, role_result < m * m), (32, work < 4 * (n + 1) ** 2)))


def roles_above(file, role):
    """The roles that a role lies under, by the pairs of an accepted release: itself, and those that are reached by chains."""
    above, listed = {role}, pairs_and_axioms_of(file)[2]
    while True:
        more = {upper for lower, upper in listed if lower in above} - above
        if not more:
            return above
        above |= more


def role_result(first, second, signature):
    """The bytes of an accepted comparison, m for each role: 1 where both roles are chosen and the one lies under the other by the first
    release and not by the second."""
    _, n, m, _ = header(first)
    chosen = {role for role in range(m) if signature[n + role] == 1}
    reported = {role: chosen & roles_above(first, role) - roles_above(second, role) for role in chosen}
    return bytes(upper in reported.get(role, ()) for role in range(m) for upper in range(m))


def concept(first, second, signature, lent, work):
    """So many numbers are lent for rows."""
    number, side, n, m = agreed(first, second)
    return (number, side) if number else first_of((
        (17, len(signature) != n + m), (18, any(byte > 1 for byte in signature)),
        (32, work < 4 * (n + 1) ** 2), (44, lent // 3 < (n + 2) ** 3)))


def rowcheck(first, second, signature, count, work):
    number, side, n, m = agreed(first, second)
    return (number, side) if number else first_of((
        (17, len(signature) != n + m), (18, any(byte > 1 for byte in signature)),
        (32, work < 4 * (n + 1) ** 2 + 2 * (n + 1) * count)))


def sheet(first, second, count, rule, signatures, lent, work):
    number, side, n, m = agreed(first, second)
    return (number, side) if number else first_of((
        (53, rule not in (1, 2)), (42, count > 64), (17, len(signatures) != count * (n + m)), (18, any(byte > 1 for byte in signatures)),
        (43, lent < count), (32, work < 4 * (n + 1) ** 2)))


def chosen(first, count, signatures):
    """How many names each of the signatures has chosen."""
    _, _, n, m, _ = check(first)
    return [sum(signatures[i * (n + m):i * (n + m) + n]) for i in range(count)]


class Session:
    """Two files held at the start of as many bytes as the longest one has, with their lengths, and a signature's bytes. A file is None
    where its length is past the bytes."""
    ROOM, CHOSEN, RESULT = 2421, 159, 127

    def __init__(self, first, second, chosen):
        self.files, self.chosen = {1: first, 2: second}, chosen

    def counts(self):
        """n and m, None where the session is refused with 46."""
        if None in self.files.values():
            return None
        checked = [check(file) for file in self.files.values()]
        one_each = all(file[3:5] == bytes([1, 0]) for file in self.files.values())
        if not one_each or any(number for number, *_ in checked) or checked[0][2:4] != checked[1][2:4]:
            return None
        n, m = checked[0][2:4]
        return (n, m) if max(self.chosen[:n + m], default=0) <= 1 else None

    def step(self, side, work, change):
        """Number and side of a step's refusal, (0, 0) where it is none: `change` makes of the side's axioms those after it."""
        if side not in (1, 2) or self.counts() is None:
            return 46, 0
        n, m = self.counts()
        file = self.files[side]
        axioms = {left: file[start:end] for left, _, _, start, end in axioms_of(file)[2]}
        try:
            change(n, m, axioms)
            new = file[:7] + bytes([len(axioms)]) + b"".join(axioms[left] for left in sorted(axioms))
            axioms_of(new)
        except Refused as refused:
            return refused.args[0], side
        if work < 4 * (n + 1) ** 2:
            return 32, 0
        self.files[side] = new
        return 0, 0

    def add(self, side, text, work):
        def change(n, m, axioms):
            reader = Reader(text, VERSIONS[1])
            reader.at = 0
            left = axiom(reader, n, m, None)[0]
            if reader.at < len(text):
                raise Refused(14)
            if left in axioms:
                raise Refused(47)
            axioms[left] = text

        return self.step(side, work, change)

    def withdraw(self, side, name, work):
        def change(n, m, axioms):
            if name >= n:
                raise Refused(9)
            if name not in axioms:
                raise Refused(48)
            del axioms[name]

        return self.step(side, work, change)
