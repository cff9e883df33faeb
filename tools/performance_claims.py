"""Which numbers of the pages come from docs/performance.txt, and whether they are its numbers. A claim
is a pattern with a group for each number, and what these have to be: numbers of the tables there,
rounded as the page writes them."""
import math
import re
from pathlib import Path

WEEKS = 365.25 / 7  # of a year
METERS_AUDITED = 1e4  # of each file that bench/sales audits
DOCS = Path(__file__).resolve().parent.parent / "docs"


def tables():
    """The tables of the page, by their titles: each a list of rows by the words of its head."""
    found, text = {}, (DOCS / "performance.txt").read_text(encoding="utf-8")
    for title, body in re.findall(r"^### (.*)\n\n((?:\|.*\n)+)", text, re.MULTILINE):
        head, _, *rows = [[cell.strip() for cell in line.split("|")[1:-1]]
                          for line in body.splitlines()]
        found[title] = [dict(zip(head, row)) for row in rows]
    return found


def number(cell):
    """The number of a cell: of a ratio the median, which stands in front of its brackets."""
    return float(re.sub(r"[*,]", "", cell).split()[0].strip("()"))


def brackets(cell):
    """The middle half of the ratios that a cell has behind their median."""
    return [float(end) for end in cell.partition("(")[2].rstrip(")").split(" to ")]


def claims():
    """Each claim: a page, a pattern, and its numbers."""
    all_tables = tables()

    def cells(title, column, **where):
        rows = [row for row in all_tables[title]
                if all(row[name.replace("_", " ")] == value for name, value in where.items())]
        return [number(row[column]) for row in rows]

    replies = "Replies in a second, on one kept connection"
    commands = "Commands, from start to end, in ms"
    lookups = "Look-ups in a second"
    sale = "A sale, by the sales before it"
    older = "Opening a file of format 1, and one of format 4"
    audit = "An audit of a file of format 4, beside an opening"
    sold = cells(replies, "vend to Python", Message="sale", At_once="1") + \
        cells(sale, "vend to Python")
    reprinted = cells(replies, "vend to Python", Message="reprint", At_once="1")
    beside_c = cells(sale, "vend to C")
    sells = {row["Sales in the file"]: row for row in all_tables[commands]
             if row["Command"] == "one sale (`sell`)"}
    at_desk = [[number(row[column]) for row in sells.values()] for column in ("vend --desk", "--desk to Python")]
    migrations = cells(older, "1 to 4, times as long")
    longer = cells(audit, "times as long")
    most = all_tables[older][-1]
    instructions = [number(row["Instructions"]) for row in all_tables["Instructions of a sale at the desk"]]
    syncs = [number(row["vend"]) for row in all_tables["Syncs"]]
    slow = {row["Longer by"]: row for row in all_tables["Sales a second at the desk, where a sync takes longer"]}
    page = "docs/PERFORMANCE.md"
    yield page, r"one message at a time \| (\S+) to (\S+) \| (\S+) to (\S+) \|", \
        [min(sold), max(sold), min(beside_c), max(beside_c)]
    yield page, r"at the desk takes (\d+),000 instructions\. This repository's functions take (\d+),000 of them", \
        [count / 1000 for count in instructions]
    for takes, written in (("0 ms", "nothing, in memory"), ("1 ms", "1 ms"), ("3 ms", "3 ms"), ("10 ms", "10 ms")):
        yield page, rf"\|{written}\|(\d+)\|(\d+)\|(\d+)\|", \
            [number(slow[takes][side]) for side in ("vend", "C", "Python")]
    yield page, r"a sale at the desk was (\S+) times as fast as in Python, and (\S+) times as fast as in C", \
        [number(slow["0 ms"][f"vend to {peer}"]) for peer in ("Python", "C")]
    yield page, r"The first row of the table above gives (\S+) and (\S+) instead\.", \
        [number(slow["0 ms"]["vend"]) / number(slow["0 ms"][peer]) for peer in ("Python", "C")]
    yield page, r"lay between (\S+) and (\S+) \(Python\), and between (\S+) and (\S+) \(C\)", \
        [end for peer in ("Python", "C") for end in brackets(slow["0 ms"][f"vend to {peer}"])]
    opened = [number(row["format 4, ms"]) * 1000 / number(row["Sales in the file"]) for row in all_tables[older]]
    yield page, r"foreign key, in (\d+) to (\d+) µs a sale", [min(opened[1:]), max(opened[1:])]
    waits = all_tables["How long a reply takes, in ms: median, 99 of 100, slowest"]
    waits = next(row["vend"].split(", ") for row in waits if (row["Message"], row["At once"]) == ("sale", "1"))
    yield page, r"a sale's reply takes (\S+) ms, and 99 of 100 take at most (\S+) ms", [float(it) for it in waits[:2]]
    held = {row[""]: row for row in all_tables["What serve holds in memory, in MiB: now, at most"]}
    yield page, r"holds (\S+) MiB after 20,000 messages, Python's (\S+) MiB", \
        [float(held[side]["after 10000 reprints more"].split(", ")[1]) for side in ("vend", "Python")]
    yield page, r"A command syncs (\d+) to (\d+) times", [min(syncs[2:]), max(syncs[2:])]
    yield page, r"reprints at the desk \| (\S+) to (\S+) \|", [min(reprinted), max(reprinted)]
    looked_up = cells(lookups, "vend to Python")
    yield page, r"look-ups at the desk \| (\S+) to (\S+) \|", [min(looked_up), max(looked_up)]
    yield page, r"with 100,000 sales and 10,000 meters, takes at most (\S+) ms", [max(cells(lookups, "vend, ms"))]
    for count, written in (("100", "100 sales in the file"), ("1000", "1,000 sales"),
                           ("10000", "10,000 sales")):
        yield page, rf"`sell`, {written} \| (\S+) \|", [number(sells[count]["vend to Python"])]
    yield page, r"`sell`, 100,000 sales \((\S+) s against (\S+) ms\) \| (\S+) \|", \
        [number(sells["100000"]["vend"]) / 1000, number(sells["100000"]["Python"]),
         number(sells["100000"]["vend to Python"])]
    yield page, r"`sell --desk`, 100 to 100,000 sales \| (\S+) to (\S+) \|", [min(at_desk[1]), max(at_desk[1])]
    yield page, r"a command that asks it took (\S+) ms", [max(at_desk[0])]
    yield page, r"export of 10,000 sales \| (\S+) \|", \
        cells(commands, "vend to Python", Command="the export of all sales (`report`)")
    yield page, r"import of 10,000 meters \| (\S+) \|", \
        cells(commands, "vend to Python", Command="an import of 10000 meters (`import`)")
    yield page, r"opening takes (\S+) to (\S+) times as long as later ones", \
        [min(migrations), max(migrations)]
    yield page, r"sales it takes (\d+) MiB of memory, later ones (\d+)", \
        [number(most["format 1, MiB at most"]), number(most["format 4, MiB at most"])]
    yield page, r"An audit\*\* takes (\S+) to (\S+) times as long as an opening", [min(longer), max(longer)]
    yield page, r"holds all rows in memory: (\d+) MiB with 100,000 sales", \
        [number(all_tables[audit][-1]["audit, MiB at most"])]
    yield "docs/FAQ.md", r"a `sell` took (\S+) s; .*`sell --desk` took (\S+) ms", \
        [number(sells["100000"]["vend"]) / 1000, max(at_desk[0])]
    yield "docs/FAQ.md", r"and (\d+) times as fast at 100,000", [1 / number(sells["100000"]["vend to Python"])]
    # Between two sizes of a file the ratio is taken as a line over logarithms.
    faster, slower = (math.log(number(sells[count]["vend to Python"])) for count in ("1000", "10000"))
    yield "docs/FAQ.md", r"from some (\d+),000 sales on", [10 ** (faster / (faster - slower))]
    held_by_audit = number(all_tables[audit][-1]["audit, MiB at most"])
    gigabytes = held_by_audit * 2 ** 20 / 1e5 * 1e6 / 1e9  # for a million sales
    growing = "docs/GROWING.md"
    # The file that was opened on a disk has METERS_AUDITED meters beside its sales; each takes about as long.
    on_disk = number(all_tables[audit][-1]["opening, ms"]) * 1e6 / (1e5 + METERS_AUDITED) / 1000
    yield growing, r"A million sales take some (\S+) s with the file in memory and some (\S+) s on a disk", \
        [number(most["format 4, ms"]) * 10 / 1000, on_disk]
    yield growing, r"some (\S+) GB with a million sales and (\d+) GB with ten million", \
        [gigabytes, gigabytes * 10]
    years = 1e5 / WEEKS
    yield growing, r"\| (\d+),000 \| (\d+) months \| (\d),(\d)00 years \|", \
        [10, 100 / WEEKS * 12, years // 1000, years % 1000 / 100]
    yield growing, r"\| 1,000,000 \| (\d+) days \| (\d+) years \|", [7, 1000 / WEEKS]
    yield growing, r"\| 10,000,000, (\d+) sales a second \| (\d+) hours \| (\d+) months \|", \
        [1e7 / 604800, 1e6 / (1e7 / 604800) / 3600, 100 / WEEKS * 12]
    yield "README.md", r"each sync delayed by 3 ms \| (\d+) a second \| (\d+) in Python, (\d+) in C", \
        [number(slow["3 ms"][side]) for side in ("vend", "Python", "C")]
    yield "CHANGELOG.md", r"takes (\S+) to (\S+) times as long as a later one", \
        [min(migrations), max(migrations)]


# Numbers of PERFORMANCE.md that say what was measured, and are no result.
OF_WHAT = re.compile(r"\b(100|1,000|10,000|100,000) (sales|meters)|100 to 100,000 sales|20,000 messages|99 of 100"
                     r"|above 1 |^  \|(1|3|10) ms\|", re.MULTILINE)


def wrong_claims(texts):
    """A line for each claim that a page does not make, or that is another number; and for each number of
    docs/PERFORMANCE.md that is no claim."""
    count, page_claimed, claimed = 0, "docs/PERFORMANCE.md", set()
    for page, pattern, numbers in claims():
        found = re.search(pattern, texts[page])
        if not found:
            yield f"{page} has nothing like {pattern}"
            continue
        if page == page_claimed:
            claimed |= {place for group in range(1, found.re.groups + 1) for place in range(*found.span(group))}
        for written, real in zip(found.groups(), numbers):
            count += 1
            digits = len(written.partition(".")[2])
            if abs(float(written) - real) > 0.5 * 10 ** -digits + 1e-9:
                yield f"{page}: {written}, where docs/performance.txt has {real:.4g}"
    text = texts[page_claimed]
    for found in OF_WHAT.finditer(text):
        claimed |= {*range(*found.span())}
    bare = re.sub(r"\]\([^)]*\)|`[^`]*`", lambda it: "_" * len(it[0]), text)
    for found in re.finditer(r"(?<![\w.-])\d[\d,.]*", bare):
        if found.start() not in claimed:
            yield f"{page_claimed}: no script made {found[0]}: {text[max(0, found.start() - 30):found.end() + 30]!r}"
    print(f"pages: {count} numbers of docs/performance.txt")
