#!/usr/bin/env python3
"""Writes the cases that the program `examples` runs, to crates/examples/data/.

usage: tools/vectors.py FOLDER..

The folders hold vectors, NAME.jsonl, one JSON object a line with bytes in hex, the newest folder first. Those of a family come from
all folders that have it; of an older folder those lines are left out that have a file of version 3, which was refused then. The cases
of the families `refusals`, `shows`, `rewrites`, `pages`, `practices`, `signatures`, `questions`, `comparisons`, `sheets`, `concepts`
and `rowchecks` come from the tables of that name beside this script; release.py confirms these, of the last five which are refused, how
many names are chosen and what the role result is. Those of the family `deep` are made here, those of the family `lines` of the vectors
`sheet`, those of the families `starts` and `steps` of the vectors `session`, and those of the families `held` and `edits` of the table
sessions.txt, which release.py confirms too, but for the result bytes.

A data file is a case after the other. A case is a length of four bytes and that many bytes: its fields, one after the
other, each again a length of four bytes and that many bytes. A number is a field of one to eight bytes. Numbers and
lengths have their low byte first. A case has at most 65,536 bytes, which is the room that the program reads it into.

The fields of a case: first what the call is given, then what it answers.

    check, refusals     file; number, side, n, m, a
    show, shows         first, second, side, name; file that holds the part, its start, the part
    rewrite, rewrites   file, wanted version, length of the output; number, side, the rewritten file
    page, pages         a result, length of the output; number, side, the page; number and length where the length is asked
    practice, practices     seed, n, m, length of the output; number, side, the file
    question, question-roles, questions, deep
                        file, c, d, length of the work memory; number, side, value, zeros
    compare, compare-roles, comparisons
                        first, second, signature, lengths of the result, the role result and the work memory; number, side, result,
                        role result, zeros
    station             first, second, signature; the text
    lines               first, second, the signatures, the word that names the rule; the text of the program `sheet`
    sheet, sheets       first, second, how many signatures, the number of the rule, the signatures, how many rows, length of the work memory; number,
                        side, the rows filled (each chosen, left, right, share, of two bytes), zeros
    shown, concepts     first, second, signature, name, side, how many numbers are lent for rows, length of the work memory;
                        number, side, 1 where a row is written, the rows (of four bytes each number) where just these will
                        do, zeros
    rowcheck, rowchecks    first, second, signature, name, side, the rows (of four bytes each number), length of the work
                        memory; number, side, 1 for yes, zeros
    signatures          n, m, steps; n, m, the bytes of the first places, a place more, its byte
    starts              first, second, signature, length of the work memory; number, side, result, zeros
    held                a session: first, its length, second, its length, signature, result; n, m, first, second, signature and
                        result as its readers tell them
    steps, edits        a session, side, the axiom added, the name withdrawn (empty where an axiom is added), length of the
                        work memory; number, side, the side's file, result, zeros

The bytes of a session past those given are marked; so the file of a length above its bytes goes on in marks.

Where a call is refused, n, m, a, value and zeros are 0, and the results, the file and the page have no byte: what is lent stays as it
was.

A family more from the folders is a line more in VECTORS: for each field its key and how it is written.
"""
import json
import pathlib
import re
import sys

sys.dont_write_bytecode = True
import release

TOOLS = pathlib.Path(__file__).resolve().parent
DATA = TOOLS.parent / "crates" / "examples" / "data"

# How many places of a signature are read one by one: all of the longest, and some beyond.
PLACES = 1072

# A file and a page are shorter. An output of more bytes is lent with this many, so that the program needs no more room;
# what is answered is the same.
MOST_OUTPUT = 40000

# How many bytes of work memory the programs lend.
PROGRAM_WORK = 65536

# How many bytes a case may have.
ROOM = 65536

# How much work memory a case can lend, as crates/examples/src/memory.rt says: enough for releases of 299 names. Vectors that lend more are
# left out; bench/ tries them.
LENT = 360448

# The release of version 1 without names and roles, which a refused start leaves; what a session has past the bytes given.
EMPTY = b"ELT" + bytes([1, 0, 0, 0, 0])
MARK = bytes([165])


def number(value):
    return value.to_bytes(max(1, (value.bit_length() + 7) // 8), "little")


def output(length):
    return number(min(length, MOST_OUTPUT))


def rows(values):
    return b"".join(part.to_bytes(2, "little") for row in values for part in row)


def numbers(values):
    """The numbers of rows, of which the last may be cut short."""
    return b"".join(part.to_bytes(4, "little") for row in values for part in row)


def room_for(count):
    """How many numbers so many rows have."""
    return number(3 * count)


def text(value):
    return value.encode("ascii")


QUESTION = dict(file=bytes.fromhex, c=bytes.fromhex, d=bytes.fromhex, work_len=number, number=number, side=number,
                value=number, zeros=number)
COMPARE = dict(first=bytes.fromhex, second=bytes.fromhex, sig=bytes.fromhex, result_len=number, role_len=number,
               work_len=number, number=number, side=number, result=bytes.fromhex, roles=bytes.fromhex, zeros=number)
VECTORS = {
    "check": dict(file=bytes.fromhex, number=number, side=number, n=number, m=number, a=number),
    "show": dict(first=bytes.fromhex, second=bytes.fromhex, side=number, name=number, file=number, start=number,
                 part=bytes.fromhex),
    "question": QUESTION,
    "question-roles": QUESTION,
    "compare": COMPARE,
    "compare-roles": COMPARE,
    "rewrite": dict(file=bytes.fromhex, wanted=number, out_len=output, number=number, side=number,
                    out_file=bytes.fromhex),
    "page": dict(result=bytes.fromhex, out_len=output, number=number, side=number, page=bytes.fromhex, asked=number,
                 length=number),
    "practice": dict(seed=number, n=number, m=number, out_len=output, number=number, side=number, file=bytes.fromhex),
    "sheet": dict(first=bytes.fromhex, second=bytes.fromhex, q=number, rule=number, sigs=bytes.fromhex, rows_len=number,
                  work_len=number, number=number, side=number, rows=rows, zeros=number),
    "shown": dict(first=bytes.fromhex, second=bytes.fromhex, sig=bytes.fromhex, name=number, side=number, rows_len=room_for,
                  work_len=number, number=number, rside=number, reported=number, any_rows=numbers, zeros=number),
    "rowcheck": dict(first=bytes.fromhex, second=bytes.fromhex, sig=bytes.fromhex, name=number, side=number, rows=numbers,
                     work_len=number, number=number, rside=number, yes=number, zeros=number),
    "station": dict(first=bytes.fromhex, second=bytes.fromhex, sig=bytes.fromhex, out=text),
}


def completed(row):
    """The row with `zeros`, how many bytes of its work memory are zero after the call: none where it is refused. The rows of
    a concept shown are not in the vectors: any may be written. Of a page the row gets what asking for its length answers."""
    if "page" in row:
        row["asked"], row["length"] = page_length(bytes.fromhex(row["result"]))
    if "work_len" in row:
        checked = len(row["rows"]) if "yes" in row else 0
        row["zeros"] = needed(bytes.fromhex(row.get("file") or row["first"]), checked) if row["number"] == 0 else 0
    return row | {"any_rows": []}


def needed(file, checked=0):
    """How many bytes of work memory a call about an accepted release needs; where it checks rows, more for each."""
    names = release.header(file)[1]
    return 4 * (names + 1) ** 2 + 2 * (names + 1) * checked


def page_length(result):
    """What is answered how long a page is: a number, and the length."""
    page = release.page(result)
    return (51, 0) if page is None else (0, len(page))


def sized(content):
    return len(content).to_bytes(4, "little") + content


def write(family, cases):
    """Writes the family's data file; a case is the list of its fields."""
    cases = [b"".join(map(sized, case)) for case in cases]
    if max(map(len, cases)) > ROOM:
        sys.exit(f"{family}: a case has more than {ROOM} bytes")
    (DATA / family).write_bytes(b"".join(map(sized, cases)))
    print(f"{family}: {len(cases)} cases")


def outside(folders, family):
    """The family's vectors, from all folders that have them: of all but the first, without those that have a file of version 3."""
    paths = [path for path in (folder / f"{family}.jsonl" for folder in folders) if path.exists()]
    for path in paths:
        for row in map(json.loads, path.read_text().splitlines()):
            if path == paths[0] or not any(is_version_3(row[key]) for key in ("file", "first", "second") if key in row):
                yield row


def is_version_3(file):
    return bytes.fromhex(file)[:5] == b"ELT\x03\x00"


def vectors(folders, family):
    fields = VECTORS[family].items()
    rows = [row for row in outside(folders, family) if row.get("work_len", 0) <= LENT]
    return [[form(row[key]) for key, form in fields] for row in map(completed, rows)]


def table(name):
    """The lines of a table that say something, without their comments."""
    lines = (TOOLS / f"{name}.txt").read_text().splitlines()
    return [line for line in (line.split("#")[0].strip() for line in lines) if line]


def span(word, base):
    """The numbers of `3`, `3-5` or `3..5`."""
    ends = [int(part, base) for part in re.split(r"-|\.\.", word)]
    return range(ends[0], ends[-1] + 1)


def file_bytes(words):
    """The bytes that a line of refusals.txt writes: two digits for a byte, four for two bytes, the low one first."""
    def repeated(match):
        return " ".join(match[2].replace("@", f"{name:0{digits(match[1])}X}") for name in span(match[1], 16))

    def digits(word):
        return len(re.split(r"-|\.\.", word)[0])

    words = re.sub(r"each (\S+) \((.*?)\)", repeated, words).replace("ELT", "45 4C 54")
    return b"".join(value.to_bytes(digits(word) // 2, "little") for word in words.split() for value in span(word, 16))


def session_before(first, second, signature, result):
    """The fields of a session whose files have the lengths of their bytes."""
    return [first, number(len(first)), second, number(len(second)), signature, result]


def starts(folders):
    cases = []
    for row in outside(folders, "session"):
        first, second, signature = (bytes.fromhex(row[key]) for key in ("first", "second", "sig"))
        start = row["start"]
        cases.append([first, second, signature, number(row["work_len"]), number(start["number"]), number(start["side"]),
                      bytes.fromhex(start["result"]), number(needed(first) if start["number"] == 0 else 0)])
    return cases


def steps(folders):
    """Each step of a script, on the session that the step before, or the start, left."""
    cases = []
    for row in outside(folders, "session"):
        accepted = row["start"]["number"] == 0
        first, second, signature = (bytes.fromhex(row[key]) for key in ("first", "second", "sig")) if accepted else (EMPTY, EMPTY, b"")
        result = bytes.fromhex(row["start"]["result"])
        for step in row["steps"]:
            before = session_before(first, second, signature, result)
            first, second, result = (bytes.fromhex(step[key]) for key in ("first", "second", "result"))
            text, name = (bytes.fromhex(step["what"]), b"") if step["add"] else (b"", number(step["what"]))
            done = step["number"] == 0
            after = [{1: first, 2: second}[step["side"]], result, number(needed(first))] if done else [b"", b"", number(0)]
            cases.append([*before, number(step["side"]), text, name, number(step["work_len"]), number(step["number"]),
                          number(step["rside"]), *after])
    return cases


def sessions():
    """The cases of the families `held` and `edits`, from the table."""
    held, edits = [], []
    for line in table("sessions"):
        asked, answer = line.split("=")
        answer, _, work = answer.partition(" in ")
        work, answer = int(work or 65536), answer.split()
        words, *parts = asked.split("|")
        words, parts = words.split(), list(map(file_bytes, parts))
        if words[0] == "session":
            lengths = [len(file) if word == "whole" else int(word) for word, file in zip(words[1:], parts)]
            files = [(file + MARK * release.Session.ROOM)[:length] if length <= release.Session.ROOM else None
                     for file, length in zip(parts, lengths)]
            session = release.Session(*files, parts[2] + MARK * (release.Session.CHOSEN - len(parts[2])))
            counts = session.counts()
            confirmed("sessions", line, tuple(map(int, answer)) if answer != ["none"] else None, counts)
            n, m = counts or (0, 0)
            result = b""
            told = [*files, session.chosen[:n + m], MARK * n] if counts else [b""] * 4
            given = [parts[0], number(lengths[0]), parts[1], number(lengths[1]), parts[2]]
            held.append([*given, result, number(n), number(m), *told])
            continue
        before = [*given, result]
        side, name = int(words[1]), int(words[2]) if words[0] == "withdraw" else None
        number_, refused_side, words = expected(answer)
        got = session.add(side, parts[0], work) if name is None else session.withdraw(side, name, work)
        confirmed("sessions", line, (number_, refused_side), got)
        after = [b"", b"", number(0)]
        if words is not None:
            result = file_bytes(" ".join(words))
            after = [session.files[side], result, number(needed(session.files[side]))]
            given[2 * side - 2:2 * side] = [session.files[side], number(len(session.files[side]))]
        edits.append([*before, number(side), parts[0] if name is None else b"", b"" if name is None else number(name), number(work),
                      number(number_), number(refused_side), *after])
    return held, edits


def lines(folders):
    """What the program `sheet` prints for the vectors of the sheet, by the rule that a word names. It counts the signatures by their bytes, and lends 64 rows and
    PROGRAM_WORK bytes, so vectors with another count, or refused for what they lend, are left out."""
    cases = []
    for row in outside(folders, "sheet"):
        first, second, signatures = (bytes.fromhex(row[key]) for key in ("first", "second", "sigs"))
        _, _, n, m, _ = release.check(first)
        held = len(signatures) // (n + m) if n + m else 0
        if row["number"] in (0, 32) and needed(first) > PROGRAM_WORK:
            row.update(number=32, side=0)
        elif row["number"] in (32, 43):
            continue
        if row["q"] == held:
            cases.append([first, second, signatures, text(str(row["rule"])), text(sheet_text(row))])
    return cases


def sheet_text(row):
    if row["number"] != 0:
        return f"refused {row['number']} side {row['side']}\n"
    return "".join(f"branch {branch} chosen {chosen} left {left} right {right} share {share}\n"
                   for branch, (chosen, left, right, share) in enumerate(row["rows"]))


def refusals():
    cases = []
    for line in table("refusals"):
        words, expected = line.split("=")
        file, expected = file_bytes(words), expected.split()
        answer = (0, 0, *map(int, expected[1:])) if expected[0] == "ok" else (int(expected[0]), 1, 0, 0, 0)
        if release.check(file) != answer:
            sys.exit(f"refusals.txt: {line}: {release.check(file)}")
        cases.append([file, *map(number, answer)])
    return cases


def shows():
    cases = []
    for line in table("shows"):
        asked, expected = line.split("=")
        first, second, asked = asked.split("|")
        first, second = file_bytes(first), file_bytes(second)
        (side, name), (file, start, length) = map(int, asked.split()), map(int, expected.split())
        if release.show(first, second, side, name) != (file, start, length):
            sys.exit(f"shows.txt: {line}: {release.show(first, second, side, name)}")
        part = (first, second)[file - 1][start:start + length]
        cases.append([first, second, number(side), number(name), number(file), number(start), part])
    return cases


def rewrites():
    cases = []
    for line in table("rewrites"):
        asked, expected = line.split("=")
        asked, file = asked.split("|")
        wanted, length = map(int, asked.split())
        file, expected = file_bytes(file), expected.split()
        if expected[0] == "refused":
            answer = (int(expected[1]), int(expected[2]), b"")
        else:
            answer = (0, 0, file_bytes(" ".join(expected)))
        if release.rewrite(file, wanted, length) != answer:
            sys.exit(f"rewrites.txt: {line}: {release.rewrite(file, wanted, length)}")
        cases.append([file, number(wanted), number(length), number(answer[0]), number(answer[1]), answer[2]])
    return cases


def result_bytes(words):
    """The bytes of `3 0 2` or `199 of 1`."""
    found = []
    for part in filter(None, map(str.strip, words.split(","))):
        times, several, byte = part.partition(" of ")
        found += int(times) * [int(byte)] if several else map(int, part.split())
    return bytes(found)


def pages():
    cases = []
    for line in table("pages"):
        asked, answer = line.split("=")
        result, length = asked.split("|")
        result, length, words = result_bytes(result), int(length), answer.split()
        page = release.page(result)
        if words[0] == "refused":
            confirmed("pages", line, page is not None and len(page) <= length, False)
            number_, side, page = int(words[1]), int(words[2]), b""
        elif words[-1] == "bytes":
            confirmed("pages", line, int(words[0]), len(page))
            number_, side = 0, 0
        else:
            confirmed("pages", line, "".join(words).translate(str.maketrans("_/^", " \n\f")).encode("ascii"), page)
            number_, side = 0, 0
        cases.append([result, number(length), number(number_), number(side), page, *map(number, page_length(result))])
    return cases


def practices():
    """A line of the table, and what outputs up to two bytes shorter or longer than its file give."""
    cases = []
    for line in table("practices"):
        asked, answer = line.split("=")
        asked = tuple(map(int, asked.split()))
        number_, side, words = expected(answer.split())
        file = b"" if words is None else file_bytes(" ".join(words))
        confirmed("practices", line, (number_, side, file), release.practice(*asked, MOST_OUTPUT))
        for length in range(max(0, len(file) - 2), len(file) + 3):
            cases.append([*map(number, (*asked, length)), *answered_practice(release.practice(*asked, length))])
    return cases


def answered_practice(answer):
    return [number(answer[0]), number(answer[1]), answer[2]]


def signatures():
    cases = []
    for line in table("signatures"):
        asked, steps, got, ones, more = (part.split() for part in line.split(":"))
        steps = [(word[0], value) for word in steps for value in span(word[1:], 10)]
        ones = {place for word in ones for place in span(word, 10)}
        (n, m), (names, roles), (place, byte) = (map(int, pair) for pair in (asked, got, more))
        if release.signature(n, m, steps) != (names, roles, ones) or byte != (place in ones):
            sys.exit(f"signatures.txt: {line}: {release.signature(n, m, steps)}")
        cases.append([
            number(n), number(m), b"".join(kind.encode() + value.to_bytes(8, "little") for kind, value in steps),
            number(names), number(roles), bytes(place in ones for place in range(PLACES)),
            number(place), number(byte)])
    return cases


def expected(words):
    """Number, side and, of what is not refused, the rest of the words."""
    if words[0] == "refused":
        return int(words[1]), int(words[2]), None
    return 0, 0, words[1:] if words[0] == "ok" else words


def confirmed(name, line, answer, told):
    """Stops where release.py tells another refusal, or another role result, than the table."""
    if answer != told:
        sys.exit(f"{name}.txt: {line}: {told}")


def questions():
    cases = []
    for line in table("questions"):
        asked, answer = line.split("=")
        *texts, work = asked.split("|")
        file, below, above = map(file_bytes, texts)
        number_, side, words = expected(answer.split())
        confirmed("questions", line, (number_, side), release.question(file, below, above, int(work)))
        cases.append(answered(file, below, above, int(work), int(words[0])) if words else
                     refused(file, below, above, int(work), number_, side))
    return cases


def comparisons():
    cases = []
    for line in table("comparisons"):
        asked, answer = line.split("=")
        *files, lengths = asked.split("|")
        first, second, signature = map(file_bytes, files)
        lengths = list(map(int, lengths.split()))
        answer, _, pairs = answer.partition(",")
        pairs = file_bytes(pairs)
        number_, side, words = expected(answer.split())
        confirmed("comparisons", line, (number_, side), release.comparison(first, second, signature, *lengths))
        confirmed("comparisons", line, pairs, b"" if words is None else release.role_result(first, second, signature))
        cases.append([first, second, signature, *map(number, lengths), number(number_), number(side),
                      file_bytes(" ".join(words or [])), pairs, number(0 if words is None else needed(first))])
    return cases


def row_values(words):
    """The rows of `3 1 2 666`, or of `64 * 3 1 2 666`, which stands for so many."""
    times, star, row = words.rpartition("*")
    return [tuple(map(int, row.split()))] * (int(times) if star else 1)


def sheets():
    cases = []
    for line in table("sheets"):
        asked, answer = line.split("=")
        first, second, count, signatures, lengths = asked.split("|")
        first, second, signatures = map(file_bytes, (first, second, signatures))
        lent, work = lengths.split()
        count, _, rule = map(str.strip, count.partition("by"))
        count, rule = int(count), int(rule or 1)
        parts = answer.split(",")
        number_, side, words = expected(parts[0].split())
        filled = [] if words is None else [row for part in parts[1:] for row in row_values(part)]
        for length in span(lent, 10):
            refusal = release.sheet(first, second, count, rule, signatures, length, int(work))
            confirmed("sheets", line, (number_, side), refusal)
            if words is not None and [row[0] for row in filled] != release.chosen(first, count, signatures):
                sys.exit(f"sheets.txt: {line}: {release.chosen(first, count, signatures)}")
            cases.append([first, second, number(count), number(rule), signatures, number(length), number(int(work)), number(number_),
                          number(side), rows(filled), number(0 if words is None else needed(first))])
    return cases


def concept_rows(words):
    """The rows of `1 2 0, 60 doubled`, where the second stands for so many rows, each the conjunction of the one before it
    with itself."""
    found = []
    for part in filter(None, map(str.strip, words.split(","))):
        times, doubled, _ = part.partition(" doubled")
        places = range(len(found), len(found) + int(times)) if doubled else []
        found += [[2, at - 1, at - 1] for at in places] if doubled else [list(map(int, part.split()))]
    return found


def concepts():
    cases = []
    for line in table("concepts"):
        asked, answer = line.split("=")
        first, second, signature, what, lengths = asked.split("|")
        first, second, signature = map(file_bytes, (first, second, signature))
        (name, side), (lent, work) = (list(map(int, pair.split())) for pair in (what, lengths))
        number_, side_, words = expected(answer.split())
        confirmed("concepts", line, (number_, side_), release.concept(first, second, signature, lent, work))
        found = [] if words in (None, ["none"]) else concept_rows(" ".join(words))
        cases.append([first, second, signature, number(name), number(side), number(lent), number(work), number(number_),
                      number(side_), number(len(found) > 0), numbers(found), number(0 if words is None else needed(first))])
    return cases


def rowchecks():
    cases = []
    for line in table("rowchecks"):
        asked, answer = line.split("=")
        first, second, signature, what, given, work = asked.split("|")
        first, second, signature = map(file_bytes, (first, second, signature))
        name, side = map(int, what.split())
        given, work = concept_rows(given), int(work)
        number_, side_, words = expected(answer.split())
        count = sum(map(len, given)) // 3
        confirmed("rowchecks", line, (number_, side_), release.rowcheck(first, second, signature, count, work))
        cases.append([first, second, signature, number(name), number(side), numbers(given), number(work), number(number_),
                      number(side_), number(words == ["yes"]), number(0 if words is None else needed(first, count))])
    return cases


def circle(kind, version=1, names=127, pairs=None):
    """A release in which each name is, by this kind, ∃ of the next, and the last of the first: by its one role, or, in version 3 with these
    pairs, by all of 32 roles in turn."""
    def written(number):
        return number.to_bytes(release.VERSIONS[version].width, "little")

    roles = 1 if pairs is None else 32
    listed = b"" if pairs is None else bytes([len(pairs)]) + b"".join(map(bytes, pairs))
    axioms = b"".join(written(name) + bytes([kind, name % roles]) + written((name + 1) % names) for name in range(names))
    return b"ELT" + bytes([version, 0]) + written(names) + bytes([roles]) + written(names) + listed + axioms


def deep_roles():
    """Questions about such circles whose roles lie each under the next, and whose roles lie in a circle: 126 ∃ in each other, by the roles
    of the release's own, by the lowest, by the highest."""
    def nested(roles):
        return b"".join(bytes([3, role]) for role in roles) + bytes([1, 126, 0])

    own, lowest, highest = (nested(roles) for roles in ([name % 32 for name in range(126)], [0] * 126, [31] * 126))
    first = bytes([1, 0, 0])
    rising = [(role, role + 1) for role in range(31)]
    chain = [circle(kind, 3, pairs=rising) for kind in (3, 4)]
    equal = [circle(kind, 3, pairs=[*rising, (31, 0)]) for kind in (3, 4)]
    none = [circle(kind, 3, pairs=[]) for kind in (3, 4)]
    return [answered(file, below, above, 65536, value) for below, above, files, values in (
        # what is below the name, and above it: its own ∃, and by rules only what is above; those by higher roles; all, where roles are equal
        (first, own, chain, (1, 3)), (first, highest, chain, (1, 1)), (first, lowest, chain, (0, 2)),
        (first, own, equal, (1, 3)), (first, highest, equal, (1, 3)), (first, lowest, equal, (1, 3)),
        (first, own, none, (1, 3)), (first, highest, none, (0, 0)), (first, lowest, none, (0, 0)),
        # and among each other
        (lowest, own, chain, (1, 1)), (highest, own, chain, (2, 2)), (lowest, highest, equal, (3, 3)), (lowest, highest, none, (0, 0)),
    ) for file, value in zip(files, values)]


def deep(version):
    """Questions with concepts as deep and as long as there can be, about circles; and the two of P10. A name takes one
    byte in version 1 and two in version 2."""
    def name(number):
        return bytes([1]) + number.to_bytes(version, "little")

    def nested(count, filler):
        return some * count + filler

    top, some = bytes([0]), bytes([3, 0])
    tops = bytes([2] * 127 + [0] * 128)
    last = {1: 84, 2: 63}[version]
    joined = bytes([2] * last) + b"".join(map(name, range(last + 1)))
    defined, stated = circle(4, version), circle(3, version)
    counts = {1: bytes([1, 1, 1]), 2: bytes([1, 0, 1, 1, 0])}[version]
    anything = b"ELT" + bytes([version, 0]) + counts + bytes(version) + bytes([4, 0]) + bytes([255] * version)
    # 0 where neither lies below the other, 1 where the first does, 2 where the second does, 3 where both do
    asked = [
        # 0 is ∃ of 1, which is ∃ of 2 .., so ∃ 126 times of 126, and ∃ 127 times of something
        (defined, nested(126, name(126)), name(0), 3), (defined, name(0), nested(126, name(126)), 3),
        (defined, nested(126, name(125)), name(0), 0), (defined, name(0), nested(126, name(125)), 0),
        (defined, name(0), nested(127, top), 1), (defined, nested(127, top), name(0), 2),
        (stated, name(0), nested(126, name(126)), 1), (stated, nested(126, name(126)), name(0), 2),
        (stated, name(0), nested(127, top), 1), (stated, nested(127, top), name(0), 2),
        # both deep
        (defined, nested(126, name(126)), nested(126, name(126)), 3), (stated, nested(126, name(5)), nested(126, name(5)), 3),
        (defined, nested(126, name(126)), nested(126, name(0)), 0), (stated, nested(126, name(5)), nested(127, top), 1),
        (defined, nested(127, top), nested(127, top), 3), (defined, nested(127, top), nested(126, name(0)), 2),
        # 127 conjunctions, and as many of names as there is room for
        (defined, tops, tops, 3), (defined, name(0), tops, 1), (defined, tops, name(0), 2), (defined, tops, nested(127, top), 2),
        (stated, joined, name(last), 1), (stated, joined, name(last + 1), 0), (stated, name(0), joined, 2),
        (defined, joined, joined, 3), (stated, joined, nested(127, top), 1), (defined, joined, nested(126, name(126)), 1),
        # P10
        (anything, nested(1, name(0)), name(0), 1), (anything, name(0), nested(1, name(0)), 2)]
    return [answered(file, below, above, 65536, value) for file, below, above, value in asked]


def answered(file, below, above, work, value):
    return [file, below, above, number(work), number(0), number(0), number(value), number(needed(file))]


def refused(file, below, above, work, refusal, side):
    return [file, below, above, number(work), number(refusal), number(side), number(0), number(0)]


def wide():
    """Questions about circles with names beyond a byte, and the work memory that they need: 64 KiB are too little."""
    cases = []
    zero, top = bytes([1, 0, 0]), bytes([0])
    for names in (128, 255, 256, 257):
        defined, stated = circle(4, 2, names), circle(3, 2, names)
        last = bytes([1]) + (names - 1).to_bytes(2, "little")
        beyond = bytes([1]) + names.to_bytes(2, "little")
        enough = needed(defined)
        # the last name is ∃ of 0, by a definition or by a rule
        cases += [
            answered(defined, bytes([3, 0]) + zero, last, enough, 3), answered(defined, last, bytes([3, 0]) + zero, enough, 3),
            answered(stated, bytes([3, 0]) + zero, last, enough, 2), answered(stated, last, bytes([3, 0]) + zero, enough, 1),
            answered(defined, last, zero, enough, 0), answered(defined, last, last, enough, 3),
            refused(defined, zero, last, enough - 1, 32, 0), refused(defined, zero, last, 65536, 32, 0),
            refused(defined, beyond, last, enough, 19, 1), refused(defined, last, beyond, enough, 19, 2),
            # ⊤ is no name, half a name is none, and a name of one byte is half of one
            refused(defined, bytes([1, 255, 255]), last, enough, 19, 1), refused(defined, last, bytes([1, 0]), enough, 19, 2),
            refused(defined, bytes([2, 1, 0, 0]), last, enough, 19, 1), answered(defined, bytes([2, 1, 0, 0, 0]), top, enough, 1)]
    return cases


def main():
    folders = list(map(pathlib.Path, sys.argv[1:]))
    DATA.mkdir(parents=True, exist_ok=True)
    for family in VECTORS:
        write(family, vectors(folders, family))
    write("lines", lines(folders))
    write("refusals", refusals())
    write("shows", shows())
    write("rewrites", rewrites())
    write("pages", pages())
    write("practices", practices())
    write("signatures", signatures())
    write("questions", questions())
    write("comparisons", comparisons())
    write("sheets", sheets())
    write("concepts", concepts())
    write("rowchecks", rowchecks())
    write("deep", deep(1) + deep(2) + wide() + deep_roles())
    write("starts", starts(folders))
    write("steps", steps(folders))
    held, edits = sessions()
    write("held", held)
    write("edits", edits)


if __name__ == "__main__":
    main()
