"""Each row of the tables of docs/COMMANDS.md and docs/AUDIT.md, the bounds of docs/OFFICE.md, and what docs/PROFILE.md
computes, beside the program: a part of tools/check_pages. It is no script of its own.

Most rows are run here. A row that takes more than a run names the script that runs it (`ELSEWHERE`), which the gate
runs, and whose last lines have to reach what it expects. A row that is neither is wrong."""
import ast
import contextlib
import functools
import http.client
import json
import re
import shlex
import shutil
import sqlite3
import subprocess
import time
from pathlib import Path
from random import Random

import audited_offices
from help_texts import helps_of
from page_bounds import check_bounds
from program import AT, KEY, METER, NO_METER, RECEIPT, SPENT, TOP, VEND, begin_desk, change, expect, prepare, vend
from shared import FORMAT, back_to, numbers, quoted, rows_of_page, same, tables_of, wrong
from shut_offices import check_shut

PAGE, AUDIT_PAGE = "COMMANDS.md", "AUDIT.md"
FAR = "20000000008"
# Half a year after the last identifier under the base date 1993.
SPENT_AT = "1750000000"
SALES_OF_LOG = 500
TRIES = 5  # to see a log that goes when its command ends
EXPORT = "number,moment,shift,operator,ref,meter,base,tid,tenths,price,tender,change,token"


def sell(file, ref, meter=METER, tender="10", at=AT, operator="ann"):
    return ["sell", "--file", file, "--operator", operator, "--ref", ref, "--meter", meter, "--tender", tender,
            "--at", at]


class Offices:
    """Files to which a row's commands are given: each a copy of one office, or new."""

    def __init__(self, folder):
        self.folder, self.whole, self.count = folder, folder / "whole.db", 0
        prepare(self.whole)
        more = folder / "more.csv"
        more.write_text(f"meter,base,tariff,key\n{FAR},2035,flat,{KEY}\n{SPENT},1993,flat,{KEY}\n")
        expect(vend("import", "--file", str(self.whole), "--at", AT, "meters", str(more)), 0, b"added 2\n")
        expect(vend(*sell(str(self.whole), "A-1")), 0, RECEIPT)
        change(self.whole, "PRAGMA wal_checkpoint(TRUNCATE);")

    def new(self):
        self.count += 1
        return self.folder / f"{self.count}.db"

    def copy(self, statements=""):
        file = self.new()
        shutil.copy(self.whole, file)
        if statements:
            change(file, f"PRAGMA foreign_keys=0; {statements} PRAGMA wal_checkpoint(TRUNCATE);")
        return str(file)

    def text(self, text):
        self.count += 1
        file = self.folder / f"{self.count}.csv"
        file.write_text(text)
        return str(file)


# Each command without its file.
WORDS = {
    "import": ["import", "--at", AT, "tariffs", str(TOP / "examples" / "tariffs.csv")],
    "shift": ["shift", "--operator", "ann", "--at", AT, "close"],
    "sell": sell("", "A-1")[:1] + sell("", "A-1")[3:],
    "report": ["report", "--kind", "totals"],
    "show": ["show", "--at", AT, "meter", "--meter", METER],
    "list": ["list", "--at", AT, "tariffs"],
    "offer": ["offer", "--at", AT, "--meter", METER, "15"],
    "tariff": ["tariff", "--at", AT, "--meter", METER, "--tariff", "flat"],
    "withdraw": ["withdraw", "--at", AT, "--tariff", "flat", "--from", "2030-01-01"],
    "base": ["base", "--at", AT, "--meter", METER, "--base", "2014"],
    "key": ["key", "--at", AT, "--meter", METER, "--key", KEY],
    "audit": ["audit"],
    "serve": ["serve", "--listen", "127.0.0.1:0", "--connections", "1"],
    "quote": ["quote", ":100", "0", "15"],
    "meter": ["meter", "--key", KEY, "00072057602627981690"],
    "trial": ["trial", "--base", "2014", "--key", KEY, "--at", AT, "1"],
    "selfcheck": ["selfcheck"],
}


def given(name, file, has_file=True):
    """The words of a command with this file."""
    return [name, *(["--file", str(file)] if has_file else []), *WORDS[name][1:]]


def check_commands(offices):
    """Each command has a row, which says what it prints, and what it does where its file does not exist."""
    meters = str(TOP / "examples" / "meters.csv")
    rubbish = offices.text("This is no database.\n" * 50)
    rows = rows_of_page(PAGE, "Command", "Standard output", "If the file does not exist", "With `--desk`")
    helps = helps_of(VEND)[1]
    same([quoted(name)[0] for name, *_ in rows], [*helps], f"docs/{PAGE}: the commands, beside the help")
    for cell, prints, missing, desk in rows:
        name = quoted(cell)[0]
        if name not in WORDS:
            wrong(f"tools/page_rows.py runs no command {name}: add it there")
        options = options_of(helps[name])
        files = [option for option in options if option == "--file"]
        same("--desk" in options, desk == "yes", f"docs/{PAGE}: {name} with --desk")
        words = [it for it in WORDS[name][1:] if it not in ("--at", AT)]
        for asked in (["--desk", "127.0.0.1:1", *words], [*words, "--desk=127.0.0.1:1"]):
            expect(vend(name, *asked), *((1, b"", b"net\n") if desk == "yes" else (2, b"")))
        same(not files, missing == "needs none", f"docs/{PAGE}: the file of {name}")
        has_file = bool(files)
        if name == "serve":
            ends_by_signal(given(name, offices.copy(), has_file), quoted(prints)[0])
        elif name == "import":
            file = offices.new()
            expect(vend(*given(name, file, has_file)), 0, b"added 1\n")
            expect(vend("import", "--file", str(file), "--at", AT, "meters", meters), 0,
                   f"{quoted(prints)[0]}\n".encode())
        else:
            check_printed(name, prints, vend(*given(name, offices.copy(), has_file)))
        if files:
            file = offices.new()
            words = given(name, file)
            ran = ends_by_signal(words, None) if name == "serve" else vend(*words)
            same(file.exists(), missing == "is created", f"docs/{PAGE}: {name} makes its file")
            if missing == "`file`":
                expect(ran, 1, b"", b"file\n")
            # docs/OPENING.md has the lines of a folder that does not exist, a folder and a file that is no database.
            homeless = "open 3 Store" if missing == "is created" else "file"
            for named, line in ((offices.folder / "none" / "1.db", homeless), (offices.folder, "open 3 Store"),
                                (rubbish, "open 3 Store")):
                expect(vend(*given(name, named)), 1, b"", f"{line}\n".encode())
    for kind, first in (("shift", "SHIFT 1 ann"), ("receipt", "SALE 1"), ("sales", EXPORT)):
        ran = vend("report", "--file", offices.copy(), "--kind", kind)
        same(ran.stdout.decode().partition("\n")[0], first, f"report --kind {kind}")
    expect(vend("quote", *WORDS["offer"][1:3], "--file", offices.copy(), *WORDS["offer"][3:]), 0, b"1 10 5\n")
    expect(vend("quote", "--file", offices.copy(), *WORDS["offer"][1:]), 0, b"1 10 5\n")
    expect(vend("quote", "--desk", "127.0.0.1:1", "--meter", METER, "15"), 1, b"", b"net\n")
    expect(vend("sell", "--base", "2014", *WORDS["trial"][3:]), 0, b"00072057602627981690\n")
    return len(rows)


def options_of(said):
    """The names of the options of which a command's help has a line."""
    return [option.partition(" ")[0] for option, _ in said.lists["Options"]]


def ends_by_signal(words, said):
    """Has a desk run, and ends it; what it prints is nothing, and where it listens, of some shape."""
    process = subprocess.Popen([VEND, *words], stdout=subprocess.PIPE, stderr=subprocess.PIPE)
    line = process.stderr.readline().decode().rstrip("\n")
    process.kill()
    out = process.communicate()[0]
    if said is not None:
        same((re.sub(r":\d+$", "", line), out), (re.sub(r":\d+$", "", said), b""), "what serve prints")


def check_printed(name, prints, ran):
    """What a command prints is what stands first, or last, in its row, or of the kind that the row links."""
    lines, shown = ran.stdout.decode().splitlines(), quoted(prints)
    if name == "sell":
        expect(ran, 0, RECEIPT, b"")
    elif name in ("show", "list", "audit"):
        first = {"show": "meter", "list": "tariff", "audit": "sound format 4"}[name]
        same((ran.returncode, lines[0][:len(first)]), (0, first), f"docs/{PAGE}: {name}")
    else:
        wanted = shown if name == "meter" else shown[-1:] if name == "report" else shown[:1]
        same((ran.returncode, lines), (0, wanted), f"docs/{PAGE}: what {name} prints")


def check_strangers(offices):
    """Which commands leave a stranger's database as it is: those of which docs/USING.md says so, and `audit`."""
    page = (TOP / "docs" / "USING.md").read_text(encoding="utf-8")
    said = re.search(r"((?:`\w+`(?:, | and ))+`\w+`) never create a file, and never add tables", page)
    keep = {*quoted(said[1])}
    stranger = offices.new()
    change(stranger, "CREATE TABLE notes (text TEXT); INSERT INTO notes VALUES ('kept');")
    names = [name for name, said in helps_of(VEND)[1].items() if "--file" in options_of(said) and name in WORDS]
    same({*names} >= keep, True, f"docs/USING.md: the commands with a file, {names}")
    for name in names:
        file = offices.new()
        shutil.copy(stranger, file)
        if name == "serve":
            ends_by_signal(given(name, file), None)
        else:
            vend(*given(name, file))
        tables = subprocess.run(["sqlite3", file, ".tables"], capture_output=True, text=True, check=True).stdout.split()
        same(tables == ["notes"], name in keep, f"docs/USING.md: {name} on a database of somebody else: {tables}")
    check_faulty_imports(offices, stranger)
    # A database that does not open gives none of the five its answer.
    change(stranger, "CREATE VIEW name AS VALUES (1);")
    for name in keep:
        expect(vend(*given(name, stranger)), 1, b"", b"open 3 Store\n")
    return len(names)


def check_faulty_imports(offices, stranger):
    """An import whose CSV file is at fault makes no file and adds no tables; one that the office refuses does both."""
    page = (TOP / "docs" / "USING.md").read_text(encoding="utf-8")
    said = quoted(re.search(r"They leave the file alone after (.*)\.$", page, re.MULTILINE)[1])
    head = "meter,base,tariff,key\n"
    rows = {
        "Header": "meter\n", "Columns": f"{head}1\n", "Field k": f"{head}1,2014,flat,{KEY}\n",
        "TooManyRows": head + f"{METER},2014,none,{KEY}\n" * 10001, "NoTariff": f"{head}{METER},2014,none,{KEY}\n",
    }
    same(said, ["bad word", "refused clock", *rows][:-1], "docs/USING.md: what makes no file")
    runs = [(cause != "NoTariff", ["meters", offices.text(text)]) for cause, text in rows.items()]
    for keeps, words in (*runs, (True, ["meters", "none.csv"]), (True, ["sales", "none.csv"])):
        new, old = offices.new(), offices.new()
        shutil.copy(stranger, old)
        for file in (new, old):
            same(vend("import", "--file", str(file), "--at", AT, *words).returncode in (1, 2), True, f"import {words}")
        tables = subprocess.run(["sqlite3", old, ".tables"], capture_output=True, text=True, check=True).stdout.split()
        same((new.exists(), tables == ["notes"]), (not keeps, keeps), f"docs/USING.md: the file after import {words}")


def check_columns(offices):
    rows = rows_of_page(PAGE, "Command", "Columns")
    file = offices.copy()
    for cell, columns in rows:
        command, what = quoted(cell)[0].split()
        named = [] if command == "list" else ["--meter", METER]
        head = vend(command, "--file", file, "--at", AT, what, *named).stdout.decode().partition("\n")[0].split("\t")
        said = quoted(columns)
        same((said[:len(head)], {*said} - {*head} <= {"-"}), (head, True), f"docs/{PAGE}: the columns of {cell}")
    expect(vend("list", "--file", file, "--after", METER, "meters"), 0, None, b"")
    expect(vend("list", "--file", file, "--after", METER[:-1] + "4", "meters"), 2, b"", b"bad word\n")
    return len(rows)


def check_statuses(offices):
    """The statuses, by the words of the column `When`."""
    file = offices.copy()
    broken = offices.copy("UPDATE sales SET month = 9;")
    runs = {
        "done; `--help`; `--version`; `meter`, even if it refuses a token": (
            [["audit", "--file", file], ["sell", "--help"], ["--help"], ["--version"], ["show", "--file", file, "meter",
              "--meter", METER, "--operator", "!!"], ["meter", "--key", KEY, "00000000000000000000"]], b""),
        "refused; or a file, the clock or a connection failed": (
            [["report", "--file", file, "--kind", "receipt", "--number", "7"], ["audit", "--file", "none.db"]], None),
        "`audit` found no office, or a row that breaks a rule; or standard output failed": (
            [["audit", "--file", broken]], b""),
        "an argument is missing, unknown, given twice or without its value (the next three rows have the exceptions)": (
            [["sell"], ["audit", "--file", file, "--more"], ["audit", "--file", file, "--file", file],
             ["audit", "--file"]], None),
        "no command is given": ([[]], vend("--help").stdout),
        "a command that takes `--file` or `--desk` ('yes' in [the table](#what-each-command-prints)) has neither, or both, "
        "or `--desk` with an option that only a file has": (
            [["list", "meters"], ["list", "--file", file, "--desk", "127.0.0.1:1", "meters"],
             ["list", "meters", "--wait", "1", "--desk", "127.0.0.1:1"]], b"give --file or --desk\n"),
        "a value is outside its rule, even that of a `--transform` that is ignored; any argument is not UTF-8; `show meter` "
        "or `show last` lacks `--meter`; `show sale` lacks `--operator` or `--ref`; `show last` has `--json`": (
            [["quote", ":0", "0", "1"], ["quote", "--transform", "no", ":100", "0", "500"], ["quote", ":100", "0", b"\xff"], [b"\xff"], ["audit", "--file", b"\xff.db"],
             ["show", "--file", file, "meter"], ["show", "--file", file, "last"],
             ["show", "--file", file, "sale", "--operator", "ann"], ["show", "--file", file, "sale", "--ref", "A-1"],
             ["show", "--file", file, "last", "--meter", METER, "--json"]],
            b"bad word\n"),
    }
    rows = rows_of_page(PAGE, "Status", "When", "Standard error")
    same([when for _, when, _ in rows], [*runs], f"docs/{PAGE}: when there is which status")
    for status, when, _ in rows:
        given, err = runs[when]
        for words in given:
            ran = vend(*words)
            expect(ran, int(status), None, err)
            if err is None and not ran.stderr:
                wrong(f"docs/{PAGE}: {words} says nothing on standard error")
    with open("/dev/full", "w", encoding="utf-8") as full:
        ran = subprocess.run([VEND, "audit", "--file", file], stdout=full, stderr=subprocess.PIPE, check=False)
        same((ran.returncode, ran.stderr), (1, b""), "an audit whose output fails")
    return len(rows)


# Where a refusal takes more than a command on a file: the script of the gate that brings it about, and what it expects.
ELSEWHERE = {
    "refused 6 Differs": ("check_desk", 'refusal(6, "Differs")'),
    "refused 11 OfficeFull": ("check_at_desk", r'b"refused 11 OfficeFull\n"'),
    "refused 15 Memory": ("check_memory", r'b"refused 15 Memory\n"'),
    "open 4 Memory": ("check_memory", r'b"open 4 Memory\n"'),
    "refused 17 Stopped": ("check_at_desk", r'b"refused 17 Stopped\n"'),
    "refused 19 DayPast": ("check_desk", 'refusal(19, "DayPast")'),
    "refused clock": ("check_at_desk", r'b"refused clock\n"'),
}


@functools.lru_cache(maxsize=None)
def definitions_in(script):
    """What a script of tools/ or its module defines, by name: the code, or the module from which it is imported; and
    under no name what it does when it is run."""
    path = next(it for it in (TOP / "tools" / script, TOP / "tools" / f"{script}.py", None) if it is None or it.is_file())
    found = {}
    for part in ast.parse(path.read_text(encoding="utf-8")).body if path else []:
        if isinstance(part, ast.ImportFrom):
            found |= {it.asname or it.name: (part.module, it.name) for it in part.names}
        elif isinstance(part, (ast.FunctionDef, ast.ClassDef)):
            found[part.name] = part
        elif isinstance(part, ast.Assign):
            found |= {it.id: part for target in part.targets for it in ast.walk(target) if isinstance(it, ast.Name)}
        elif isinstance(part, ast.If):
            found[""] = part
    return found


@functools.lru_cache(maxsize=None)
def code_reached(script):
    """The code that a script reaches from its end, by the names that it calls and uses: each expression as it is dumped."""
    seen, unread, found = set(), [(script, "")], set()
    while unread:
        place = unread.pop()
        code = None if place in seen else definitions_in(place[0]).get(place[1])
        seen.add(place)
        if isinstance(code, tuple):
            unread.append(code)
        elif code is not None:
            unread += [(place[0], it.id) for it in ast.walk(code) if isinstance(it, ast.Name)]
            found |= {ast.dump(it) for it in ast.walk(code) if isinstance(it, ast.expr)}
    return found


def is_run_elsewhere(script, expected):
    """Whether the gate runs a script, whose last lines reach an expression."""
    gate = (TOP / ".ci" / "run").read_text(encoding="utf-8")
    return bool(re.search(rf"^look \d+ {script}$", gate, re.MULTILINE)) and \
        ast.dump(ast.parse(expected, mode="eval").body) in code_reached(script)


def check_refusals(offices):
    """Each line of the refusals comes from what the page says of it."""
    late, header = str(int(AT) + 90000), "meter,base,tariff,key\n"
    base = lambda file, year: ["base", "--file", file, "--meter", METER, "--base", year, "--at", "2100000000"]
    runs = {
        "refused 1 RefReused": lambda file: [sell(file, "A-1", tender="20")],
        "refused 2 NoShift": lambda file: [sell(file, "B-1", operator="bob")],
        "refused 3 ShiftOpen": lambda file: [["shift", "--file", file, "--operator", "ann", "--at", AT, "open"]],
        "refused 4 NoMeter": lambda file: [sell(file, "A-2", meter=NO_METER)],
        "refused 5 NoTariff": lambda file: [
            ["tariff", "--file", file, "--meter", METER, "--tariff", "night", "--at", AT]],
        "refused 7 BeforeBase": lambda file: [sell(file, "A-2", meter=FAR)],
        "refused 8 IdentifiersSpent": lambda file: [sell(file, "A-2", meter=SPENT, at=SPENT_AT)],
        "refused 9 IdentifierAhead": lambda file: [sell(file, "A-2", at=late), sell(file, "A-3")],
        "refused 10 TooLittle": lambda file: [sell(file, "A-2", tender="9")],
        "refused 12 NoSale": lambda file: [["report", "--file", file, "--kind", "receipt", "--number", "2"]],
        "refused 13 NoSuchShift": lambda file: [["report", "--file", file, "--kind", "shift", "--number", "2"]],
        "refused 14 ImportRow row cause": lambda file: [
            ["import", "--file", file, "--at", AT, "meters", offices.text(f"{header}{NO_METER},2014,none,{KEY}\n")]],
        "refused 16 Store": lambda file: [
            sell(offices.copy(f"UPDATE meters SET secret = 'x' WHERE meter = '{METER}';"), "A-2")],
        "refused 18 NotLater": lambda file: [base(file, "2035"), base(file, "2014")],
        "refused 20 HasSales": lambda file: [
            ["key", "--file", file, "--meter", METER, "--key", "0123456789abcdef", "--at", AT]],
        "refused amount": lambda file: [["trial", "--base", "2014", "--key", KEY, "--at", AT, "16385"]],
        "file": lambda file: [["import", "--file", file, "tariffs", "none.csv"]],
        "net": lambda file: [["list", "--desk", "127.0.0.1:1", "tariffs"]],
        "open 1 NotAnOffice": lambda file: [
            ["audit", "--file", offices.copy("ALTER TABLE sales ADD COLUMN more TEXT;")]],
        "open 3 Store": lambda file: [["audit", "--file", offices.text("This is no database.\n" * 50)]],
    }
    lines = [line for cell, *_ in rows_of_page(PAGE, "Line", "Why", "What to do") for line in quoted(cell)]
    same({*lines}, {*runs, *ELSEWHERE}, f"docs/{PAGE}: the lines of refusals that are run")
    for line in lines:
        if line in ELSEWHERE:
            if not is_run_elsewhere(*ELSEWHERE[line]):
                wrong(f"docs/{PAGE}: tools/{ELSEWHERE[line][0]} does not run {line}")
            continue
        *before, last = runs[line](offices.copy())
        for words in before:
            expect(vend(*words), 0)
        said = line.replace("row cause", "1 NoTariff")
        expect(vend(*last), 1, b"", f"{said}\n".encode())
    return len(lines)


def check_causes(offices):
    """The causes of 14, each by a file of rows."""
    dated, meters = "name,steps,from\n", "meter,base,tariff,key\n"
    runs = {
        "Header": ("tariffs", meters, "0 Header"),
        "Columns": ("tariffs", "name,steps\nday\n", "1 Columns"),
        "Field k": ("tariffs", "name,steps\nday,:0\n", "1 Field 2"),
        "TooManyRows": ("tariffs", "name,steps\n" + "flat,:100\n" * 10001, "10001 TooManyRows"),
        "Differs": ("tariffs", "name,steps\nflat,:7\n", "1 Differs"),
        "NoTariff": ("tariffs", f"{dated}night,:7,2099-01-01\n", "1 NoTariff"),
        "DayPast": ("tariffs", f"{dated}flat,:7,2014-01-01\n", "1 DayPast"),
    }
    causes = [quoted(cell)[0] for cell, _ in rows_of_page(PAGE, "Cause", "Why")]
    same(causes, [*runs], f"docs/{PAGE}: the causes of 14 that are run")
    for kind, text, said in runs.values():
        ran = vend("import", "--file", offices.copy(), "--at", AT, kind, offices.text(text))
        expect(ran, 1, b"", f"refused 14 ImportRow {said}\n".encode())
    return len(causes)


def check_spreadsheets(offices):
    """What an import says of files as spreadsheets write them, row by row of docs/TEXTS.md."""
    head, row = "meter,base,tariff,key", f"{NO_METER},2014,flat,{KEY}"
    whole = f"{head}\n{row}\n"
    runs = {
        "`ImportRow 0 Header`": [whole.replace(",", ";"), whole.replace(",", "\t"), whole.encode("utf-16"),
                                 f"sep=,\n{whole}", whole.replace(",", ", "), whole.replace("\n", ",\n")],
        "`Field 2` of that row": [whole + row.replace(",", ", ", 1)],
        "`Field 1` of that row": [f"{whole},,,\n"],
        "`Field 4` of its row": [f"{head}\n{row[:-16]}{key}\n" for key in ("0", "1200000", "00000000000012E5")],
        "`Field 1` of its row": [f"{head}\n{meter}{row[11:]}\n" for meter in ("1.2E+10", "12173001")],
        "`Field 3` of its row": ["name,steps,from\nflat,:130,01/01/2030\n"],
    }
    rows = rows_of_page("TEXTS.md", "What it wrote", "What `import` says")
    same([said for _, said in rows], [*runs], "docs/TEXTS.md: what an import says")
    for (_, said), texts in zip(rows, runs.values()):
        for text in texts:
            file = offices.folder / "sheet.csv"
            file.write_bytes(text if isinstance(text, bytes) else text.encode())
            wanted = quoted(said)[0]
            if wanted.startswith("Field"):
                wanted = f"ImportRow {2 if 'that' in said else 1} {wanted}"
            kind = "tariffs" if text[:4] == "name" else "meters"
            expect(vend("import", "--file", offices.copy(), "--at", AT, kind, str(file)), 1, b"",
                   f"refused 14 {wanted}\n".encode())
    return len(rows)


STEPS = ["each row alone", "rows together", "totals", "requests", "requests, sale by sale", "with `--transform`",
         "stored without its last column"]


def order_of_page():
    """The places of the page's order: sets of a table and a rule that are looked at together."""
    places, lines = [], rows_of_page(AUDIT_PAGE, "Step", "Tables", "Rules")
    same([step for step, *_ in lines if step], STEPS, f"docs/{AUDIT_PAGE}: the steps of an audit")
    for step, tables, rules in lines:
        if step in ("each row alone", "requests, sale by sale"):
            places += [{(table, rule) for rule in quoted(rules)} for table in quoted(tables)]
        else:
            places += [{(table, rule)} for table in quoted(tables) for rule in quoted(rules)]
    # No file that opens breaks `twice`, so that no audit shows where it stands in the order.
    same({table for place in places for table, rule in place if rule == "twice"},
         {*tables_of(FORMAT)} - {"about", "shifts"}, f"docs/{AUDIT_PAGE}: the tables with the rule `twice`")
    return places


def check_audit_lines(offices):
    """Each line of which the page says that an audit prints it, with its status."""
    whole, stranger = offices.new(), offices.new()
    prepare(whole)
    expect(vend(*sell(str(whole), "A-1")), 0, RECEIPT)
    change(stranger, "CREATE TABLE notes (text TEXT);")
    sound = "sound format 4 tariffs 1 meters 2 shifts 1 sales 1"
    runs = {
        sound: (whole, f"{sound}\n", ""),
        "broken TABLE ROW RULE": (offices.copy("UPDATE sales SET month = 9;"), "broken sales 1 month\n", ""),
        "no office": (stranger, "no office\n", ""),
        "file": ("none.db", "", "file\n"),
    }
    rows = rows_of_page(AUDIT_PAGE, "It prints", "Status", "What it means")
    same([quoted(cell)[0] for cell, *_ in rows], [*runs], f"docs/{AUDIT_PAGE}: what an audit prints")
    for (_, status, _), (file, out, err) in zip(rows, runs.values()):
        expect(vend("audit", "--file", str(file)), int(status), out.encode(), err.encode())
    return len(rows)


def check_audits(offices):
    """The order of the page is that in which tools/check_program finds breaks; and each rule is broken once."""
    places, at = order_of_page(), 0
    for found in audited_offices.IN_ORDER:
        table, *_, rule = found.split()
        if (table, rule) not in places[at]:
            later = [place for place in range(at, len(places)) if (table, rule) in places[place]]
            at = later[0] if later else wrong(f"docs/{AUDIT_PAGE}: an audit finds {found} later than the page says")
    rules = [quoted(cell)[0] for cell, _ in rows_of_page(AUDIT_PAGE, "Rule", "What is wrong with the row")]
    ways = {}
    for text, found in audited_offices.SPOILT + audited_offices.FORGED:
        ways.setdefault(found.split()[-1], (text, found))
    same({*rules}, {*ways, "twice"}, f"docs/{AUDIT_PAGE}: the rules that are broken")
    whole = offices.folder / "full.db"
    audited_offices.full_office(whole, offices.folder)
    for rule in rules:
        file = offices.new()
        if rule == "twice":
            text = offices.text("name,steps\nfare1,:100\nfare2,:100\n")
            expect(vend("import", "--file", str(file), "tariffs", text), 0, b"added 2\n")
            file.write_bytes(file.read_bytes().replace(b"fare2", b"fare1"))
            expect(vend("audit", "--file", str(file)), 1, b"", b"open 3 Store\n")
        else:
            audited_offices.spoil(whole, file, ways[rule][0])
            expect(vend("audit", "--file", str(file)), 1, f"broken {ways[rule][1]}\n".encode())
    missing = offices.copy("UPDATE meters SET tariff = 'night';")
    expect(vend("audit", "--file", missing), 1, b"", b"open 3 Store\n")
    check_first_of_two(offices)
    return len(rules)


def check_first_of_two(offices):
    """Of tables without numbers the page says which row is read first."""
    tariffs = offices.text("name,steps\nzone,:100\narea,:100\n")
    meters = offices.text(f"meter,base,tariff,key\n{METER},2014,zone,{KEY}\n10000000009,2014,zone,{KEY}\n")
    for spoilt, found in (("DELETE FROM tariff_steps;", "tariffs area steps"),
                          ("INSERT INTO meter_bases SELECT meter, 2035 FROM meters;",
                           "meter_bases 10000000009 2035 base"),
                          ("UPDATE tariff_steps SET price = 0;", "tariff_steps zone value"),
                          ("UPDATE meters SET secret = 'x';", f"meters {METER} value")):
        file = str(offices.new())
        expect(vend("import", "--file", file, "--at", AT, "tariffs", tariffs), 0)
        expect(vend("import", "--file", file, "--at", AT, "meters", meters), 0)
        change(file, spoilt)
        expect(vend("audit", "--file", file), 1, f"broken {found}\n".encode())


def check_tables(offices):
    """The columns of each table of an office, as docs/OFFICE.md names them."""
    file, said = offices.copy(), {}
    for table, _, columns in rows_of_page("OFFICE.md", "Table", "A row is", "Columns"):
        names = [it for it in quoted(columns) if it != "tariff_steps"]
        like = said["tariff_steps"][1:] if "then as `tariff_steps`" in columns else []
        said[quoted(table)[0]] = names + like
    with contextlib.closing(sqlite3.connect(file)) as base:
        for table, names in said.items():
            found = [name for _, name, *_ in base.execute(f"PRAGMA table_info({table})")]
            same(names, found, f"docs/OFFICE.md: the columns of {table}")
    same([*said], [*tables_of(FORMAT)], "docs/OFFICE.md: the tables of an office")
    return len(said)


def check_limits(offices):
    """The limits, each at its end and beyond it; of the log, that it is as long as the page says."""
    limits = dict(rows_of_page(PAGE, "What", "Limit"))
    steps = lambda count: ";".join([*(f"{place + 1}:9" for place in range(count - 1)), ":9"])
    brings = lambda text, file: vend("import", "--file", file, "--at", AT, "tariffs", offices.text(text))
    same(limits.pop("steps of a tariff"), "1 to 8", "the steps of a tariff")
    expect(brings(f"name,steps\nmany,{steps(8)}\n", offices.copy()), 0, b"added 1\n")
    expect(brings(f"name,steps\nmany,{steps(9)}\n", offices.copy()), 1, b"", b"refused 14 ImportRow 1 Field 2\n")
    same(limits.pop("rows of an import"), "10000", "the rows of an import")
    expect(brings("name,steps\n" + "flat,:100\n" * 10000, offices.copy()), 0, b"added 0\n")
    most = limits.pop("amount of one sale").split()[2]
    tenths = int(most.replace(".", ""))
    trial = lambda amount: vend("trial", "--base", "2014", "--key", KEY, "--at", AT, str(amount))
    expect(trial(tenths), 0)
    expect(trial(tenths + 1), 1, b"", b"refused amount\n")
    length = int(limits.pop("name of the file, without its folders").split()[0])
    for more, status in ((0, 0), (1, 1)):
        file = offices.folder / ("n" * (length + more))
        expect(vend("shift", "--file", str(file), "--operator", "ann", "--at", AT, "open"), status)
    check_fullness(offices, limits.pop("shifts, and sales, in one file"))
    megabytes = lambda what: float(limits.pop(f"log beside the file: {what}").split()[0]) * 1e6
    fresh = lambda whole: shutil.copy(whole, offices.new())
    sold = lambda file: watched(file, *sell(file, "A-2"))
    is_about(megabytes("a command that is no import"), lambda: sold(offices.copy()), "a command")
    brought = lambda file, kind, text: watched(file, "import", "--file", file, "--at", AT, kind, text)
    # The longest names, ends and prices, in no order: of sorted rows the log is shorter.
    rows = "".join(f"{number:032},{';'.join([*(f'{4294967280 + it}:1000000' for it in range(7)), ':1000000'])}\n"
                   for number in Random(1).sample(range(10000), 10000))
    tariffs = offices.text(f"name,steps\n{rows}")
    is_about(megabytes("an import of 10,000 tariffs of eight steps"),
             lambda: brought(str(offices.new()), "tariffs", tariffs), "an import of tariffs")
    rows = "".join(f"{audited_offices.meter_of(f'{number:010}')},2014,flat,{KEY}\n" for number in range(10000))
    meters, copies = offices.text(f"meter,base,tariff,key\n{rows}"), []
    # Into an empty office: one of 100,000 meters takes too long here.
    is_about(megabytes("an import of 10,000 meters"),
             lambda: copies.append(offices.copy()) or brought(copies[-1], "meters", meters), "an import")
    file = copies[-1]
    grown = lambda file: (Path(file).stat().st_size - offices.whole.stat().st_size)
    of_meter = grown(file) / 10000
    change(file, f"{back_to(1)} PRAGMA wal_checkpoint(TRUNCATE);")
    listed = lambda file: watched(file, "list", "--file", file, "tariffs")
    is_about(megabytes("migrating an older file"), lambda: listed(fresh(file)), "a migration")
    desk = offices.copy()
    is_about(megabytes("a desk"), lambda: log_of_desk(desk), "a desk")
    change(desk, "PRAGMA wal_checkpoint(TRUNCATE);")
    check_growth(of_meter, grown(desk) / SALES_OF_LOG)
    same(limits, {}, f"docs/{PAGE}: the limits that are not tried")
    return len(rows_of_page(PAGE, "What", "Limit"))


def check_fullness(offices, most):
    """The greatest number of a shift and of a sale is given, and none after it."""
    ten, power = map(int, most.split("^"))
    later = str(int(AT) + 86400)  # so that the sale has another identifier than the one that is copied
    for last, is_full in ((ten ** power - 1, False), (ten ** power, True)):
        file = offices.copy(f"INSERT INTO shifts VALUES ({last}, 'zoe', {AT}, NULL); INSERT INTO sales SELECT {last}, moment,"
                            " month, shift, operator, 'last', meter, base, tid + 1, 0, tenths, price, tender, digits FROM"
                            " sales WHERE number = 1;")
        for words, said in ((["shift", "--file", file, "--operator", "bob", "--at", later, "open"], f"shift {last + 1}\n"),
                            (sell(file, "A-2", at=later), f"SALE {last + 1}\n")):
            ran = vend(*words)
            expect(ran, int(is_full), b"" if is_full else None, b"refused 11 OfficeFull\n" if is_full else b"")
            same(is_full or ran.stdout.decode().startswith(said), True, f"docs/{PAGE}: number {last + 1} of {most}")


def check_growth(of_meter, of_sale):
    """The bytes that a meter and a sale add to the file, beside those of docs/USING.md."""
    page = (TOP / "docs" / "USING.md").read_text(encoding="utf-8")
    said = re.search(r"Each meter adds some (\d+) to (\d+) bytes\. A sale adds some (\d+) bytes", page)
    least, most, sale = map(int, said.groups())
    if not (0.9 * least < of_meter < 1.1 * most and 0.8 * sale < of_sale < 1.2 * sale):
        wrong(f"docs/USING.md: a meter adds {of_meter:.0f} bytes, and a sale {of_sale:.0f}")


def check_answers(offices):
    """The JSON of the answers of which docs/DESK.md has a table."""
    rows = dict(rows_of_page("DESK.md", "Answer", "Reply"))
    steps = "/tariffs/flat/steps"
    sent = (
        ("Done", "POST", steps, '{"from":"2099-01-01","steps":":7"}'),
        ("Withdrawn(1)", "DELETE", f"{steps}/2099-01-01", None),
        ("Imported(2)", "POST", "/imports/tariffs", "name,steps\nday,:7\nnight,:5\n"),
        ("Opened(1), Closed(1)", "POST", "/shifts/close", '{"operator":"ann"}'),
    )
    same({*rows}, {name for name, *_ in sent}, "docs/DESK.md: the answers that are tried")
    process, port = begin_desk(offices.copy(), 1)
    try:
        line = http.client.HTTPConnection("127.0.0.1", port, timeout=20)
        for name, method, target, body in sent:
            line.request(method, target, body)
            reply = line.getresponse()
            same((reply.status, reply.read().decode()), (200, quoted(rows[name])[0]), f"docs/DESK.md: {name}")
        line.close()
    finally:
        process.kill()
        process.communicate()
    return len(rows)


def readme_examples():
    """The sale of README.md and the receipt, its message and the reply."""
    readme = (TOP / "README.md").read_text(encoding="utf-8")
    (sold, printed), (sent, replied) = re.findall(r"^```console\n\$ (.*)\n((?:.*\n)+?)```$", readme, re.MULTILINE)
    return sold, printed, sent, replied


def sale_at_desk():
    """The sale at a desk of docs/COMMANDS.md."""
    page = (TOP / "docs" / PAGE).read_text(encoding="utf-8")
    return re.search(r"^\./vend (sell --desk .*)$", page, re.MULTILINE)[1]


def check_profile(_):
    """The amounts, the tokens and the price that docs/PROFILE.md computes."""
    page = (TOP / "docs" / "PROFILE.md").read_text(encoding="utf-8")
    trial = lambda amount, *words: vend("trial", "--base", "2014", "--at", AT, "--key", *(words or [KEY]), str(amount))
    rows, begins = rows_of_page("PROFILE.md", "e", "Amounts", "In steps of"), 0
    for power, amounts, step in rows:
        (least, greatest), step = numbers(amounts), int(step)
        same((least, greatest, step), (begins, begins + step * (2 ** 14 - 1), 10 ** int(power)),
             f"docs/PROFILE.md: the amounts of e = {power}")
        for amount, line in ((least + step, b""), (greatest, b""), (greatest - step + 1, b"refused amount\n")):
            expect(trial(amount), int(line != b"" and step > 1), None, line if step > 1 else b"")
        begins = greatest + step
    expect(trial(begins), 1, b"", b"refused amount\n")
    for words in ([KEY], ["0123456789abcdef", "--transform", "demo"]):
        token = trial(1, *words).stdout.decode().strip()
        same(f"the token is `{token}`" in page, True, f"docs/PROFILE.md: the token {token}")
    price = re.search(r"under `(.*)` (\d+) tenths after (\d+) cost .* = (\d+) cents", page)
    steps, tenths, prior, cents = price.groups()
    expect(vend("quote", steps, prior, cents), 0, f"{tenths} {cents} 0\n".encode())
    return len(rows) + 3


def check_examples(offices):
    """The sale and the message of README.md, and the sale at a desk of docs/COMMANDS.md, as they are written: what is
    sold at once is sold at the moment of the example."""
    sold, printed, sent, replied = readme_examples()
    file = offices.copy("DELETE FROM sales; DELETE FROM last_ids; DELETE FROM month_tenths; DELETE FROM shift_totals;")
    words = shlex.split(sold)[1:]
    words[words.index("office.db")] = file
    expect(vend(*words, "--at", AT), 0, printed.encode())
    process, port = begin_desk(file, 2)
    try:
        line = http.client.HTTPConnection("127.0.0.1", port, timeout=20)
        line.request("POST", "/sales", shlex.split(sent)[-1])
        reply = line.getresponse().read().decode()
        line.close()
        before, _, after = replied.strip().partition(" .. ")
        same((reply.startswith(before), reply.endswith(after)), (True, True), f"README.md: the desk replied {reply}")
        expect(vend(*shlex.split(sale_at_desk().replace("127.0.0.1:8080", f"127.0.0.1:{port}"))), 0, None, b"")
    finally:
        process.kill()
        process.communicate()
    return 3


def is_about(said, look, what):
    """A log is as long as the page says at the most, and no less than a tenth. A log that goes when its command ends
    may be missed: then it is looked for again."""
    found = 0
    for _ in range(TRIES):
        found = max(found, look())
        if found >= said / 10:
            break
    if not said / 10 <= found <= said:
        wrong(f"docs/{PAGE}: the log of {what} has {found} bytes, and by the page up to {said:.0f}")


def size_of(file):
    try:
        return (TOP / f"{file}-wal").stat().st_size
    except FileNotFoundError:
        return 0


def watched(file, *words):
    """How long the log was seen while a command ran."""
    process, most = subprocess.Popen([VEND, *words], stdout=subprocess.DEVNULL), 0
    while process.poll() is None:
        most = max(most, size_of(file))
        time.sleep(0.0005)
    same(process.returncode, 0, f"the status of {words}")
    return most


def log_of_desk(file):
    """How long the log is after many sales at a desk, by when it has begun again from its front."""
    process, port = begin_desk(file, 1)
    try:
        line, most = http.client.HTTPConnection("127.0.0.1", port, timeout=20), 0
        for number in range(SALES_OF_LOG):
            order = {"meter": METER, "operator": "ann", "ref": f"L-{number}", "tender": 10}
            line.request("POST", "/sales", json.dumps(order))
            reply = line.getresponse()
            same((reply.status, reply.read() != b""), (200, True), "a sale at a desk")
            most = max(most, size_of(file))
        return most
    finally:
        process.kill()
        process.communicate()


PARTS = (check_commands, check_strangers, check_columns, check_statuses, check_refusals, check_causes,
         check_audit_lines, check_audits, check_tables, check_limits, check_answers, check_profile, check_examples,
         check_spreadsheets)


def check_page_rows(folder):
    """All of them."""
    offices = Offices(folder)
    count = sum(check(offices) for check in PARTS)
    values = check_bounds(offices)
    print(f"docs/{PAGE}, {AUDIT_PAGE}, TEXTS.md, PROFILE.md: {count} rows of tables and examples run; "
          f"docs/OFFICE.md: {values} values at its bounds and beyond")
    check_shut(folder)
