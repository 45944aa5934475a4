"""Changes day texts at random: what `bench/fuzz.py` tries, and `bench/long.py`.

A change gets a chance and the rows of a text, as lines of bytes without their line ends, and changes them in place.
What it takes for a row is a line: quotes and other line ends may make it something else, and then the text is only
stranger.
"""
import codecs
import re
from collections.abc import Iterator
from random import Random

# What stands in place of a field: numbers and dates at their limits and past them, other spellings, words of other
# fields.
STRANGE = """
0 1 2 3 8 9 00 01 +1 -0 -1 1x 64 65 256 257 4096 4097 1000 1001 16384 16385 99999 100000 999999999 1000000000 2020 2021
2100 2101 1000000000000 1000000000001 999999999999999 1000000000000000 1000000000000001 -1000000000000000
-1000000000000001 4000000000000000 -4000000000000001 18446744073709551615 18446744073709551616 -18446744073709551615
-18446744073709551616 2024-02-29 2025-02-29 2027-4-01 0000-01-01 2020-12-31 2021-01-01 2100-12-31 2101-01-01 end do
account user opening
""".split()
# Words that may stand for each other.
WORDS = [
    "open blocked excluded closed", "general aviation", "operator aircraft trading allocation total", "yes no",
    "propose approve both", "surrender deletion delete", "current period correction",
    "transfer return central surrender delete create reverse trust untrust status emissions assess distribute",
]  # fmt: skip
ALIKE = [[word.encode() for word in line.split()] for line in WORDS]
DATE = re.compile(rb"20[0-9]{2}-[0-9]{2}-[0-9]{2}")
LINE_ENDS = (b"\n", b"\r", b"\r\n", b"\n\n", b"\n\r", b"\r\r\n")
# A text grows at most to so many bytes: eight parts of 64 KiB, and some more.
MOST_BYTES = 600_000


def tag_of(row: bytes) -> bytes:
    return row.split(b",", 1)[0]


def any_place(chance: Random, rows: list[bytes]) -> int:
    """The place of a row; rows of each tag are as likely."""
    tags = [*map(tag_of, rows)]
    tag = chance.choice(sorted({*tags}))
    return chance.choice([place for place, found in enumerate(tags) if found == tag])


def drop(chance: Random, rows: list[bytes]) -> None:
    del rows[any_place(chance, rows)]


def repeat(chance: Random, rows: list[bytes]) -> None:
    place = any_place(chance, rows)
    rows.insert(place, rows[place])


def move(chance: Random, rows: list[bytes]) -> None:
    row = rows.pop(any_place(chance, rows))
    rows.insert(chance.randint(0, len(rows)), row)


def swap(chance: Random, rows: list[bytes]) -> None:
    place = chance.randrange(max(1, len(rows) - 1))
    rows[place : place + 2] = reversed(rows[place : place + 2])


def drop_run(chance: Random, rows: list[bytes]) -> None:
    place = chance.randrange(len(rows))
    del rows[place : place + chance.randint(2, 6)]


def end_early(chance: Random, rows: list[bytes]) -> None:
    rows.insert(any_place(chance, rows), b"end")


def strange_field(chance: Random, rows: list[bytes]) -> None:
    place = any_place(chance, rows)
    fields = rows[place].split(b",")
    fields[chance.randrange(len(fields))] = chance.choice([*STRANGE, ""]).encode()
    rows[place] = b",".join(fields)


def near_number(chance: Random, rows: list[bytes]) -> None:
    """A number that is one more or less, a digit longer, or the half."""
    place = any_place(chance, rows)
    fields = rows[place].split(b",")
    numbers = [at for at, field in enumerate(fields) if re.fullmatch(rb"-?[0-9]{1,20}", field)]
    if numbers:
        at = chance.choice(numbers)
        number = int(fields[at])
        fields[at] = b"%d" % chance.choice([number + 1, number - 1, -number, number * 10, number // 2, 2 * number])
        rows[place] = b",".join(fields)


def near_date(chance: Random, rows: list[bytes]) -> None:
    dated = [place for place, row in enumerate(rows) if DATE.search(row)]
    if dated:
        place = chance.choice(dated)
        found = chance.choice([*DATE.finditer(rows[place])])
        other = chance.choice(DATE.findall(rows[chance.choice(dated)]))
        day = b"%02d" % ((int(found[0][8:]) + chance.choice([-1, 1, 7])) % 33)
        date = chance.choice([other, found[0][:8] + day])
        rows[place] = rows[place][: found.start()] + date + rows[place][found.end() :]


def other_word(chance: Random, rows: list[bytes]) -> None:
    """A word in place of one that stands where it may stand, too."""
    place = any_place(chance, rows)
    fields = rows[place].split(b",")
    found = [(at, words) for at, field in enumerate(fields) for words in ALIKE if field in words]
    if found:
        at, words = chance.choice(found)
        fields[at] = chance.choice(words)
        rows[place] = b",".join(fields)


def swap_fields(chance: Random, rows: list[bytes]) -> None:
    place = any_place(chance, rows)
    fields = rows[place].split(b",")
    one, other = chance.randrange(len(fields)), chance.randrange(len(fields))
    fields[one], fields[other] = fields[other], fields[one]
    rows[place] = b",".join(fields)


def field_of_another(chance: Random, rows: list[bytes]) -> None:
    """A field of another row of the same tag, at its place."""
    place = any_place(chance, rows)
    same = [row for row in rows if tag_of(row) == tag_of(rows[place])]
    fields, others = rows[place].split(b","), chance.choice(same).split(b",")
    at = chance.randrange(min(len(fields), len(others)))
    fields[at] = others[at]
    rows[place] = b",".join(fields)


def more_or_fewer_fields(chance: Random, rows: list[bytes]) -> None:
    place = any_place(chance, rows)
    fields = rows[place].split(b",")
    if chance.random() < 0.5:
        fields.insert(chance.randint(0, len(fields)), chance.choice([b"", b"1", b"2", *fields]))
    else:
        del fields[chance.randrange(len(fields))]
    rows[place] = b",".join(fields)


def quote(chance: Random, rows: list[bytes]) -> None:
    """Quotes round a field, in it or before it, closed or not, seldom with a line end or a row inside."""
    place = any_place(chance, rows)
    fields = rows[place].split(b",")
    at = chance.randrange(len(fields))
    field = fields[at]
    within = field + chance.choice([b"\n", b"\r\naccount,1,", b'""', b",", b""])
    quoted = [b'"%b"' % field, b'"%b"' % field, b'"%b"' % within]
    fields[at] = chance.choice([*quoted, b'"' + field, field + b'"', b'""' + field])
    rows[place] = b",".join(fields)


def edit_byte(chance: Random, rows: list[bytes]) -> None:
    place = any_place(chance, rows)
    row = bytearray(rows[place])
    at = chance.randint(0, len(row))
    row[at : at + chance.choice([0, 1])] = bytes([chance.choice([*b'0129,"\r- \0\xef\xbb\xbf', chance.randrange(256)])])
    rows[place] = bytes(row)


def mark(chance: Random, rows: list[bytes]) -> None:
    """A byte order mark, or its first byte, at the start or before another row."""
    place = chance.choice([0, any_place(chance, rows)])
    rows[place] = chance.choice([codecs.BOM_UTF8, codecs.BOM_UTF8[:1]]) + rows[place]


def change_version(chance: Random, rows: list[bytes]) -> None:
    """The other version, often with the row that goes with it."""
    one = b"format,1" in rows
    rows[:] = [row for row in rows if one or tag_of(row) != b"current"]
    rows[:] = [(b"format,2" if one else b"format,1") if tag_of(row) == b"format" else row for row in rows]
    places = [place for place, row in enumerate(rows) if tag_of(row) == b"lags"]
    if one and places and chance.random() < 0.9:
        rows.insert(places[0], b"current,%d" % chance.choice([1, 1, 2]))


def later_period(chance: Random, rows: list[bytes]) -> None:
    """A further period, and perhaps a row that names it."""
    periods = [place for place, row in enumerate(rows) if tag_of(row) == b"period"]
    last = re.fullmatch(rb"period,[0-9]{4},([0-9]{4})", rows[periods[-1]]) if periods else None
    if last:
        first = int(last[1]) + chance.choice([0, 1, 2])
        rows.insert(periods[-1] + 1, b"period,%d,%d" % (first, first + chance.randrange(4)))
    accounts = [place for place, row in enumerate(rows) if tag_of(row) == b"account"]
    if accounts:
        place = chance.choice(accounts) + 1
        rows.insert(place, b"correction,%d,%d" % (chance.randint(1, 3), chance.choice([-5, 0, 7])))


def repeat_instructions(chance: Random, rows: list[bytes]) -> None:
    """The same instructions again, some of them."""
    instructions = [row for row in rows if tag_of(row) == b"do"]
    if instructions:
        more = chance.choices(instructions, k=chance.choice([2, 10, 60]))
        place = max(place for place, row in enumerate(rows) if tag_of(row) == b"do")
        rows[place + 1 : place + 1] = more


def fill_list(chance: Random, rows: list[bytes]) -> None:
    """A list of an account near its limit: representatives, trusted accounts, surrenders and deletions."""
    accounts = [place for place, row in enumerate(rows) if tag_of(row) == b"account"]
    if not accounts:
        return
    tag, most, shown = chance.choice([
        (b"user", 64, b"user,%d,both"), (b"trusted", 256, b"trusted,%d,2025-03-03"),
        (b"retired", 4_096, b"retired,%d,surrender,general,1,2025-03-03,no"),
    ])  # fmt: skip
    count = most + chance.choice([-1, 0, 0, 1])
    place = chance.choice(accounts) + 1
    while place < len(rows) and tag_of(rows[place]) in BEFORE[tag]:
        place += 1
    end = place
    while end < len(rows) and tag_of(rows[end]) == tag:
        end += 1
    rows[place:end] = [shown % number for number in range(1, count + 1)]
    if tag == b"retired" and chance.random() < 0.9:
        rows[:] = [re.sub(rb"(?<=^day,..........,)[0-9]{1,4}$", b"5000", row) for row in rows]


# Which rows of an account stand before those of a list.
BEFORE = {
    b"user": [b"correction"],
    b"trusted": [b"correction", b"user"],
    b"retired": [b"correction", b"user", b"trusted"],
}


def grow(chance: Random, rows: list[bytes]) -> None:
    """So many accounts, copies of those that are there, that the text has several parts of 64 KiB; sometimes of one
    account."""
    accounts = [place for place, row in enumerate(rows) if tag_of(row) == b"account"]
    if not accounts:
        return
    ends = [place for place, row in enumerate(rows) if tag_of(row) in (b"do", b"end") and place > accounts[-1]]
    if not ends:
        return
    block = rows[accounts[0] : ends[0]]
    numbers = [int(row.split(b",")[1]) for row in block if re.match(rb"account,[0-9]{1,9},", row)]
    step = max(numbers, default=1)
    most = chance.randint(100_000, MOST_BYTES)
    copies = min(most // (sum(map(len, block)) + len(block)), (10**9 - 1) // max(1, step))
    for count in range(1, copies):
        rows[ends[0] : ends[0]] = [*copied(block, count * step)]
        ends[0] += len(block)


def copied(block: list[bytes], more: int) -> Iterator[bytes]:
    """The blocks of accounts with other numbers."""
    for row in block:
        found = re.match(rb"account,([0-9]{1,9}),", row)
        yield b"account,%d,%b" % (int(found[1]) + more, row[found.end() :]) if found else row


SMALL = (
    [near_number, near_date, other_word, field_of_another, repeat_instructions] * 4
    + [drop, repeat, move, swap, strange_field, swap_fields, quote, change_version, later_period] * 2
    + [drop_run, end_early, more_or_fewer_fields, edit_byte, mark, fill_list]
)  # fmt: skip


def parts_of(rows: list[bytes]) -> tuple[list[bytes], list[bytes], list[bytes]]:
    """The rows before the accounts, the accounts and the instructions with the end."""
    first = next((place for place, row in enumerate(rows) if tag_of(row) in (b"account", b"do", b"end")), len(rows))
    later = next((place for place, row in enumerate(rows) if tag_of(row) in (b"do", b"end")), len(rows))
    return rows[:first], rows[first:later], rows[later:]


def spliced(chance: Random, rows: list[bytes], others: list[bytes]) -> list[bytes]:
    """Some parts of one text and the others of another one."""
    return [row for pair in zip(parts_of(rows), parts_of(others)) for row in chance.choice(pair)]


def merged(chance: Random, rows: list[bytes], others: list[bytes]) -> list[bytes]:
    """The accounts of both texts, by number, and the instructions of both behind one heading."""
    (heading, mine, own), (_, theirs, more) = parts_of(rows), parts_of(others)
    blocks: dict[bytes, list[bytes]] = {}
    number = None
    for row in [*theirs, *mine]:
        if tag_of(row) == b"account":
            number = b"".join(row.split(b",")[1:2])
            blocks[number] = []
        if number is not None:
            blocks[number].append(row)
    rising = sorted(blocks, key=lambda number: (len(number), number))
    instructions = [[row for row in part if tag_of(row) == b"do"] for part in (own, more)]
    both = instructions[0] + instructions[1]
    if chance.random() < 0.5:
        chance.shuffle(both)
    return [*heading, *(row for number in rising for row in blocks[number]), *both, b"end"]


def joined(chance: Random, rows: list[bytes]) -> bytes:
    """The text of these rows. Most have line feeds alone; some have other line ends, somewhere or everywhere."""
    way = chance.random()
    if way < 0.85:
        return b"\n".join([*rows, b""])
    if way < 0.92:
        return chance.choice(LINE_ENDS).join(rows) + chance.choice([b"", b"\n"])
    return b"".join(row + chance.choice(LINE_ENDS if chance.random() < 0.1 else [b"\n"]) for row in rows)


def mutated(chance: Random, text: bytes, other: bytes, grows: bool) -> bytes:
    """A text that comes of this one by a few changes, some of which take something of the other one."""
    rows = [row for row in text.replace(b"\r\n", b"\n").split(b"\n") if row] or [b"end"]
    others = [row for row in other.replace(b"\r\n", b"\n").split(b"\n") if row] or [b"end"]
    way = chance.random()
    if way < 0.15:
        rows = spliced(chance, rows, others) or rows
    elif way < 0.3:
        rows = merged(chance, rows, others)
    if grows:
        grow(chance, rows)
    for _ in range(chance.choice([0, 0, 1, 1, 1, 1, 2, 3, 5])):
        rows = rows or [b"end"]
        chance.choice(SMALL)(chance, rows)
    return joined(chance, rows)
