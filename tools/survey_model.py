#!/usr/bin/env python3
"""Says what the program `survey_cases` is to print: a model of the survey of a shelf (docs/RULES.md, 16), written apart from the library and from the
script that writes the shelves. What a volume, a directory and a file hold is what tools/rules.py makes of it. Figures are true numbers here, and are
held at 2^64 - 1 only as they are put into a row.

    tools/survey_model.py             writes crates/survey_cases/stdout
    tools/survey_model.py --check     fails where that file isn't what the model says
    tools/survey_model.py --random N SEED [ARCHIVE]
                                      makes the calls from C on the stored shelves, and on N at random, made of these: fails where they say something
                                      else. Needs cc and target/staticlib/libsurveys_c.a (`tools/archives proved`), or another archive
"""

import pathlib
import random
import struct
import sys
import tempfile

sys.dont_write_bytecode = True
import kit
import rules
import udf
from asked import CRATES, Cursor, named, stored, unpacked
from rules import MOST_LEVELS, OTHER, OVER_BUDGET, UNLIMITED, Disc, Refused, number

BAD_SHELF = 15
MOST = 2**64 - 1
FILES, DIRECTORIES, BYTES, EXTENTS, SECTORS, BY_FILES, BY_IMAGES, CHAIN = 0, 1, 2, 3, 4, 5, 22, 39
FIGURES = 40
PLACE = 2 * FIGURES
FREE = 0xA5A5A5A5A5A5A5A5
CHOICES = 8
SURVEY = 0
QUERY = struct.Struct("<4IQI")
LONGEST_SHELF = 3 * 2**20
SHELVES = CRATES / "survey_cases/data/shelves"


# ---- figures: 16.1 to 16.3


def figures(*some):
    """Figures, of which all but these are 0: each by its place among them."""
    row = [0] * FIGURES
    for at, n in some:
        row[at] = n
    return row


def added(several):
    """All but the chain are sums."""
    columns = list(zip(*several)) or [()] * FIGURES
    return [sum(column) for column in columns[:CHAIN]] + [max(columns[CHAIN], default=0)]


def put(row):
    return [half for n in row for half in (min(n, MOST), int(n > MOST))]


# ---- of a file, an image and a shelf: 16.4 to 16.10, and 16.13


def of_file(disc, volume, icb):
    """By a read, which has what is left of the budget; what else is looked up has none."""
    disc.count = 0
    answer, length = rules.asked(disc, lambda disc: rules.measure(disc, volume, icb))
    if answer == OVER_BUDGET:
        raise Refused(answer)
    one = [(FILES, 1), (BY_FILES + answer, 1), (SECTORS, min(disc.count, MOST))]
    if answer:
        return figures(*one)
    other = Disc(disc.image)
    extents, followed = rules.chained(other, volume, rules.entry_of(other, volume, icb))
    return figures(*one, (BYTES, length), (EXTENTS, len(extents)), (CHAIN, followed))


def of_nodes(disc, how, most, work):
    """The opening, the tree and then the reads of its files, all on one disc that is lent so many sectors."""
    if how >= CHOICES:
        raise Refused(OTHER)
    disc.lend(most)
    volume = rules.opened(disc, how)
    tree = list(rules.nodes(disc, volume, volume.root, 1, MOST_LEVELS, work))
    return [figures((DIRECTORIES, 1)) if one.is_directory else of_file(disc, volume, one.icb) for _, one in tree]


def of_image(image, how, most, work):
    answer, found = rules.asked(Disc(image), lambda disc: of_nodes(disc, how, most, work))
    return added([figures((BY_IMAGES + answer, 1)), *(found or ())])


def surveyed(shelf, lengths, how, most, row, work):
    """The answer, and what the row holds."""
    if sum(lengths) > len(shelf) or PLACE * (len(lengths) + 1) > len(row):
        return BAD_SHELF, row
    each = []
    for n in lengths:
        each.append(of_image(shelf[:n], how, most, work))
        shelf = shelf[n:]
    places = [n for one in [*each, added(each)] for n in put(one)]
    return 0, places + row[len(places) :]


# ---- of places by hand: 16.11


def totalled(row, n):
    if PLACE * (n + 1) > len(row):
        return BAD_SHELF, row
    total = []
    for at in range(0, PLACE, 2):
        numbers, marks = row[at : PLACE * n : PLACE], row[at + 1 : PLACE * n : PLACE]
        one = max(numbers, default=0) if at == 2 * CHAIN else sum(numbers)
        is_over = any(marks) or one > MOST
        total += [MOST if is_over else one, int(is_over)]
    return 0, row[: PLACE * n] + total + row[PLACE * (n + 1) :]


# ---- what is printed


def of_places(row):
    """A line for each whole place: its figures that aren't 0, and behind a `!` the mark that isn't."""
    for at in range(0, len(row) - PLACE + 1, PLACE):
        pairs = zip(row[at : at + PLACE : 2], row[at + 1 : at + PLACE : 2])
        yield "place" + "".join(f" {i}:{n}" + f"!{mark}" * (mark > 0) for i, (n, mark) in enumerate(pairs) if n or mark)


def said(what, how, numbers, work, most, shelf, given):
    if what == SURVEY:
        budget = f" most {most}" * (most != UNLIMITED)
        yield " ".join([f"survey how {how} numbers {numbers} work {work}{budget} lengths", *map(str, given)])
        answer, row = surveyed(shelf, given, how, most, [FREE] * numbers, work)
        whole = 0 if answer else PLACE * (len(given) + 1)
    else:
        places, *given = given
        yield f"total {places} numbers {numbers}"
        answer, row = totalled((given + [FREE] * numbers)[:numbers], places)
        whole = numbers // PLACE * PLACE
    yield f"answer {answer} kept {row[whole:].count(FREE)}" + " zero" * (what == SURVEY)
    yield from of_places(row[:whole])


def shelves(data):
    """The name, the bytes and the queries of each shelf of a file."""
    records = Cursor(data)
    while records.left():
        name = named(records)
        shelf = unpacked(records.inner(records.number(4, "the packed shelf's length"), "the packed shelf"), longest=LONGEST_SHELF)
        asked, queries = records.inner(records.number(4, "the queries' length"), "the queries"), []
        while asked.left():
            *head, many = QUERY.unpack(asked.take(QUERY.size, "a query"))
            queries.append((*head, [asked.number(8, "a query's number") for _ in range(many)]))
        yield name, shelf, queries


def lines(data):
    """What is printed of a file of shelves."""
    for name, shelf, queries in shelves(data):
        yield "shelf " + name
        for *head, given in queries:
            yield from said(*head, shelf, given)


# ---- shelves at random


def stored_images():
    """The images of the stored shelves, as the first survey of each has them, with its budget: without one an image may not end."""
    found = []
    for _, shelf, queries in shelves(SHELVES.read_bytes()):
        what, *_, most, lengths = queries[0]
        for size in lengths if what == SURVEY else ():
            found.append((shelf[:size], most))
            shelf = shelf[size:]
    return found


def mutated(chance, image):
    """With some of the bytes changed that hold something, seldom those of the volume's own descriptors; the checksum of their sector's tag, and its
    CRC, may be right again."""
    image = bytearray(image)
    own = () if chance.random() < 0.1 else (udf.ANCHOR, *range(udf.MAIN, udf.MAIN + 8))
    held = [at for at in range(0, len(image), udf.SECTOR) if at // udf.SECTOR not in own and any(image[at : at + udf.SECTOR])]
    for _ in range(chance.choice((0, 0, 1, 1, 2, 4, 8)) if held else 0):
        at = chance.choice(held)
        sector = image[at : at + udf.SECTOR]
        where = chance.choice([i for i, byte in enumerate(sector) if byte] or [0])
        where = chance.choice((where, min(where + 1, len(sector) - 1)))
        sector[where] = chance.choice((0, 1, sector[where] ^ 1 << chance.randrange(8), (sector[where] + 1) % 256, 255, chance.randrange(256)))
        if len(sector) == udf.SECTOR and chance.random() < 0.8:
            length = number(sector, 10, 2) if number(sector, 10, 2) <= udf.SECTOR - 16 else 0
            sector = udf.sealed(bytes(sector), length if chance.random() < 0.7 else 0)
        image[at : at + len(sector)] = sector
    if chance.random() < 0.1:
        del image[chance.choice((chance.randrange(len(image) + 1), max(len(image) - chance.randrange(1, 5000), 0))) :]
    return bytes(image)


def packed(head, given):
    return QUERY.pack(*head, len(given)) + struct.pack(f"<{len(given)}Q", *given)


def query(chance, shelf, lengths, highest):
    lengths = list(lengths)
    for _ in range(chance.choice((0,) * 8 + (1, 2))):
        at = chance.randrange(len(lengths) + 1)
        odd = chance.choice((0, 1, 2047, 2048, len(shelf), 2**63, MOST, chance.randrange(len(shelf) + 1)))
        lengths[at : at + chance.randrange(2)] = [odd]
    numbers = PLACE * (len(lengths) + 1) + chance.choice((0,) * 12 + (-1, 1, -PLACE, PLACE))
    work = chance.choice((8192,) * 6 + (65536, 0, chance.randrange(400), chance.randrange(3000)))
    how = chance.choice((0,) * 10 + (1,) * 6 + (2, 3, 4, 5, 6, 7, 8, chance.randrange(2**32)))
    most = chance.choice((highest,) * 5 + (highest - 1, *map(chance.randrange, (8, 20, 60, 200))))
    return packed((SURVEY, how, max(numbers, 0), work, most), lengths)


def by_hand(chance):
    """A total of places at random."""
    n, high = chance.randrange(4), (0, 0, 1, 2, 2**32, 2**63, MOST - 1, MOST)
    row = [chance.choice(high) if at % 2 == 0 else chance.choice((0, 0, 0, 0, 0, 0, 1, 2, MOST)) for at in range(PLACE * n)]
    numbers = PLACE * (n + 1) + chance.choice((0,) * 8 + (-1, 1, PLACE))
    return packed((1, 0, numbers, 0, UNLIMITED), [chance.choice((n,) * 8 + (n + 1, MOST)), *row])


def shelf_at_random(chance, images, name):
    parts, room, highest = [], 3 << 20, UNLIMITED
    for _ in range(chance.choice((0, 1, 1, 1, 2, 3, 5))):
        image, most = chance.choice(images)
        one = mutated(chance, image)
        if len(one) <= room:
            parts.append(one)
            room, highest = room - len(one), min(highest, most)
    shelf = b"".join(parts) + bytes(chance.choice((0, 0, 1, 2048)) if room > 2048 else 0)
    queries = b"".join(query(chance, shelf, map(len, parts), highest) for _ in range(3)) + by_hand(chance)
    return udf.record(name, shelf) + struct.pack("<I", len(queries)) + queries


def differing(program, data):
    """The first line that the calls from C say otherwise than the model, with what is asked there; none where all agree."""
    asked_of, ours, theirs = [], list(lines(data)), kit.ran(program, data).decode().splitlines()
    for one, other in zip(ours + ["(the end)"], theirs + ["(the end)"]):
        asked_of = [one] if one.startswith("shelf") else [*asked_of[:1], one] if one.startswith(("survey", "total")) else asked_of
        if one != other:
            return "\n".join([*asked_of, f"the model: {one}", f"the call:  {other}"])
    return None if len(ours) == len(theirs) else "one has more lines"


def at_random(many, seed, archive):
    chance, images = random.Random(seed), stored_images()
    with tempfile.TemporaryDirectory() as folder:
        program = pathlib.Path(folder) / "survey"
        kit.linked(kit.ROOT / "tools/survey/survey.c", [archive], program)
        batches = [SHELVES.read_bytes()]
        for n in range(many + 1):
            data = batches.pop()
            if why := differing(program, data):
                print(f"survey: {why}", file=sys.stderr)
                return 1
            batches.append(shelf_at_random(chance, images, f"at random, {n}"))
    print(f"survey: the stored shelves and {many} at random, of seed {seed}: the calls from C say what the model says")
    return 0


def main(words):
    if words[:1] != ["--random"]:
        return stored("survey_cases", lines(SHELVES.read_bytes()), words)
    archive = words[3] if len(words) > 3 else kit.ROOT / "target/staticlib/libsurveys_c.a"
    try:
        return at_random(int(words[1]), int(words[2]), archive)
    except kit.Failed as why:
        print(f"survey: {why}", file=sys.stderr)
        return 1


if __name__ == "__main__":
    sys.exit(main(sys.argv[1:]))
