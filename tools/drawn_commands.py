"""Drawn commands that ask a desk, each beside the same command on a copy of the desk's file: a part of
tools/check_at_desk. It is no script of its own."""
import random
import re

from clocked_desk import OUTPUTS, Clocked
from lookups import LETTERS, LISTS
from many_sales import ORACLE
from program import AT, expect, vend

SEEDS = (1, 2, 3)
DRAWN = 220  # requests of a life of an office
LOOKED_UP = 0.6  # so often something is looked up after a request
HEADERS = {"tariffs": "name,steps,from\n", "meters": "meter,base,tariff,key\n"}
# Rows of files that are refused whole, whatever the office has.
WRONG_ROWS = ("", "a,:1,,\n", "a,:0,\n", "a b,:1,\n", "a,:1,2099-02-29\n", "a,:1,2014-01-01\n")


class Commands:
    """Draws commands: those of the oracle's drawn requests, and look-ups behind them."""

    def __init__(self, seed, folder):
        self.random, self.folder, self.files = random.Random(seed), folder, 0
        self.orders, self.lines = [], ORACLE.Drawing(seed, True).lines(DRAWN)

    def csv(self, kind, rows, header=None):
        """The words of an import of rows."""
        self.files += 1
        file = self.folder / f"rows-{self.files}.csv"
        file.write_text((HEADERS[kind] if header is None else header) + "".join(f"{row}\n" for row in rows))
        return "import", kind, file

    def rows(self, *rows):
        """An import of the drawn rows that are of the kind of the first."""
        of = {"t": "tariffs", "s": "tariffs", "m": "meters"}
        kinds = [of[row[0]] for row in rows]
        kind = kinds[0] if kinds else "tariffs"
        texts = [self.row(*row.split(",")) for row, its in zip(rows, kinds) if its == kind]
        return self.csv(kind, texts)

    @staticmethod
    def row(kind, *values):
        if kind == "t":
            return f"{values[0]},{values[1]},"
        if kind == "s":
            return f"{values[0]},{values[2]},{values[1]}"
        return ",".join(values)

    def of(self, word, *values):
        """The command that asks what a drawn request does; none does what is left out."""
        return {
            "add-tariff": lambda name, steps: self.rows(f"t,{name},{steps}"),
            "add-steps": lambda name, day, steps: self.rows(f"s,{name},{day},{steps}"),
            "add-meter": lambda *parts: self.rows(",".join(["m", *parts])),
            "import": self.rows,
            "set-tariff": lambda meter, name: ("tariff", "--meter", meter, "--tariff", name),
            "withdraw-steps": lambda name, day: ("withdraw", "--tariff", name, "--from", day),
            "move-base": lambda meter, base: ("base", "--meter", meter, "--base", base),
            "set-key": lambda meter, key: ("key", "--meter", meter, "--key", key),
            "open-shift": lambda operator: ("shift", "--operator", operator, "open"),
            "close-shift": lambda operator: ("shift", "--operator", operator, "close"),
            "sell": self.sell,
            "reprint": lambda number: ("report", "--kind", "receipt", "--number", number),
            "report": lambda number: ("report", "--kind", "shift", "--number", number),
        }.get(word, lambda *_: None)(*values)

    def sell(self, operator, ref, meter, tender):
        self.orders.append((operator, ref, meter, tender))
        return "sell", "--operator", operator, "--ref", ref, "--meter", meter, "--tender", tender

    def look_up(self):
        """A command that looks something up, of what there is and what there is not."""
        pick = self.random.choice
        meter = pick([*ORACLE.METERS, "50000000005", "00000000000"])
        operator, ref, *_ = pick([*self.orders[-30:], ("nobody", "A-2", "", "")])
        number = self.random.randint(1, 9) if self.random.random() < 0.9 else 10**9
        json = ["--json"] * (self.random.random() < 0.5)
        kind = pick(LISTS)
        key = {"tariffs": pick([*ORACLE.TARIFFS, "-", "z" * 32, pick(LETTERS)]), "meters": meter}.get(kind, number - 1)
        after = [f"--after={key}"] * (self.random.random() < 0.4)
        return pick((
            ("show", *json, "meter", "--meter", meter),
            ("show", "last", "--meter", meter),
            ("show", *json, "sale", "--operator", operator, "--ref", ref),
            ("quote", *json, "--meter", meter, pick([*ORACLE.TENDERS, self.random.randint(1, 60000)])),
            ("report", "--kind", "totals", "--number", number),
            ("report", "--kind", pick(("receipt", "shift")), "--number", number),
            ("report", "--kind", "sales"),
            ("list", *json, *after, kind)))

    def wrong(self):
        """An import of a file that is refused, or that cannot be read."""
        pick = self.random.choice
        kind = pick((*HEADERS,))
        if self.random.random() < 0.1:
            return "import", kind, self.folder / pick(("none.csv", "", "."))
        return self.csv(kind, [pick(WRONG_ROWS)], pick((None, None, "name,steps\n", "name\n", "")))

    def all(self):
        """Each with the moment at which it is asked; or the transform under which the desk begins anew."""
        for line in self.lines:
            first, *words = line.split()
            if first == "open":
                yield words[0], None
                continue
            moment = int(first)
            command = self.of(*words)
            if command:
                yield moment, command
            if self.random.random() < LOOKED_UP:
                yield moment, self.look_up()
            if self.random.random() < 0.05:
                yield moment, self.wrong()


def refusal_in(err):
    """The number of a refusal that is told, and of one of a row the cause."""
    told = re.fullmatch(r"refused (\d+) \w+(?: \d+ (\w+).*)?\n", err.decode())
    return told and (int(told[1]), told[2])


class Seen:
    """What was compared, by the names of commands, and which refusals came at desks."""

    def __init__(self):
        self.count, self.refusals = {}, set()

    def add(self, name, ran):
        done, asked = self.count.get(name, (0, 0))
        self.count[name] = done + (ran.status == 0), asked + 1
        found = refusal_in(ran.err)
        if found:
            self.refusals.add(found)


def first_office(folder, name, transform="plain"):
    """The file of an office with nothing in it."""
    file, none = folder / name, folder / "nothing.csv"
    none.write_text("name,steps\n")
    expect(vend("import", "--file", file, "--at", AT, "--transform", transform, "tariffs", none), 0, b"added 0\n", b"")
    return file


def check_drawn(folder, library, seen):
    """Drawn commands at desks over drawn offices, under both transforms, with outputs of each kind."""
    for seed in SEEDS:
        here = folder / f"drawn-{seed}"
        here.mkdir()
        draw = random.Random(seed)
        with Clocked(here, first_office(here, "office.db"), library) as both:
            for moment, command in Commands(seed, here).all():
                if command is None:
                    both.again(moment)
                    continue
                outputs = draw.choices(OUTPUTS, (80, 10, 7, 3))[0]
                seen.add(command[0], both.ask(moment, *command, outputs=outputs))
    asked = ", ".join(f"{name} {done} of {count}" for name, (done, count) in sorted(seen.count.items()))
    print(f"drawn commands at {len(SEEDS)} desks end as on a copy of the file and leave the same: {asked} were granted")
