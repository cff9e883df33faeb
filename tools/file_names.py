"""Offices under names of every kind, and files that cannot be had: a part of tools/check_program. It is
no script of its own."""
import os
import shutil
import subprocess
from pathlib import Path

from program import AT, RECEIPT, TOP, VEND, WAIT, expect, is_sound, prepare, sell_words, vend

UNOPENED = (1, b"", b"open 3 Store\n")
MISSING = (1, b"", b"file\n")
# Who has no right to a file that only others may write.
NOBODY = 65534


def report_words(file, kind="totals"):
    return ["report", "--file", str(file), "--kind", kind]


def program():
    """The program that is named, or the one that ./vend has run."""
    built = TOP / "crates" / "vend" / "out" / "vend"
    if "VEND" in os.environ:
        return VEND
    return built if built.exists() else TOP / "release" / "vend-x86_64-linux"


def as_other(words, cwd):
    """A run that has the rights of the files alone: for root these are no bounds."""
    who = {"user": NOBODY, "group": NOBODY, "extra_groups": []} if os.geteuid() == 0 else {}
    return subprocess.run([cwd / "vend", *words], capture_output=True, stdin=subprocess.DEVNULL, cwd=cwd,
                          timeout=WAIT, **who)


def sells(file):
    """An office can be made, asked and sold from under this name, and one file is left of it."""
    prepare(file)
    expect(vend(*sell_words(file, "A-1")), 0, RECEIPT, b"")
    expect(vend(*sell_words(file, "A-1")), 0, RECEIPT, b"")
    expect(vend(*report_words(file)), 0, b"shift 1 sales 1 tenths 1 cash 10\n", b"")
    is_sound(file)


def check_spelling(folder):
    names = ["two words.db", " ", "Grüße aus Köln.db", "电表", "a'b\"c$d`e.db", "new\nline.db",
             "100%.db", "?x=1&y#z", "-wal", "semi;colon.db", "tab\there"]
    for name in names:
        sells(folder / name)
    # In a folder of such a name, and by a way there that has dots.
    (folder / "Läden und Märkte").mkdir()
    sells(folder / "Läden und Märkte" / "Nr. 1.db")
    expect(vend(*report_words(folder / "Läden und Märkte" / ".." / "two words.db")), 0,
           b"shift 1 sales 1 tenths 1 cash 10\n", b"")
    csv = folder / "Zähler & Tarife.csv"
    csv.write_bytes(b"name,steps\nnight,:50\n")
    expect(vend("import", "--file", str(folder / " "), "--at", AT, "tariffs", str(csv)), 0,
           b"added 1\n", b"")
    return len(names) + 1


def check_links(folder):
    """By a symbolic link the office is the file that it leads to. A second name of the file itself is
    refused, by either name, until it is gone."""
    (folder / "far").mkdir()
    far, near = folder / "far" / "office.db", folder / "near.db"
    sells(far)
    near.symlink_to(far)
    expect(vend(*sell_words(near, "A-1")), 0, RECEIPT, b"")
    expect(vend("shift", "--file", str(near), "--operator", "ann", "--at", AT, "close"), 0,
           b"shift 1\n", b"")
    expect(vend("shift", "--file", str(far), "--operator", "ann", "--at", AT, "open"), 0,
           b"shift 2\n", b"")
    expect(vend(*report_words(near), "--number", "2"), 0,
           b"shift 2 sales 0 tenths 0 cash 0\n", b"")
    if not near.is_symlink() or (folder / "near.db-wal").exists():
        raise SystemExit("wrong: a link is no link any more, or has a log of its own")
    is_sound(far)
    circle = folder / "circle.db"
    circle.symlink_to(circle)
    expect(vend(*report_words(circle)), *UNOPENED)
    other = folder / "other.db"
    before = far.read_bytes()
    os.link(far, other)
    for name in (far, other, near):
        expect(vend(*report_words(name)), *UNOPENED)
        expect(vend(*sell_words(name, "A-2")), *UNOPENED)
    if far.read_bytes() != before:
        raise SystemExit("wrong: a file of two names has changed")
    other.unlink()
    expect(vend(*sell_words(far, "A-1")), 0, RECEIPT, b"")


def check_folders(folder):
    """A folder in the place of the office, of its log, or of a file of rows."""
    (folder / "folder.db").mkdir()
    file = folder / "logged.db"
    sells(file)
    for words in (report_words(folder / "folder.db"), sell_words(folder / "folder.db", "A-1"),
                  report_words(f"{file}/"), report_words(file / "office.db"),
                  report_words("/"), sell_words("", "A-1")):
        expect(vend(*words), *UNOPENED)
    for name in ("", folder / "none.db", folder / "none" / "office.db"):
        expect(vend(*report_words(name)), *MISSING)
    if (folder / "none.db").exists():
        raise SystemExit("wrong: a report has made a file")
    if any((folder / "folder.db").iterdir()):
        raise SystemExit("wrong: something was made in a folder that is no office")
    for kind in ("tariffs", "meters"):
        expect(vend("import", "--file", str(file), "--at", AT, kind, str(folder)), 1, b"", b"file\n")
    log = Path(f"{file}-wal")
    log.unlink(missing_ok=True)
    log.mkdir()
    expect(vend(*sell_words(file, "A-1")), *UNOPENED)
    log.rmdir()
    expect(vend(*sell_words(file, "A-1")), 0, RECEIPT, b"")


def check_rights(folder):
    """A file or a folder that cannot be written is no office, for a report neither, and stays as it
    was. A file of rows that cannot be read is no file."""
    shop = folder / "shop"
    shop.mkdir()
    shop.chmod(0o777)
    folder.chmod(0o755)
    os.chmod(folder.parent, 0o755)
    shutil.copy(program(), shop / "vend")
    (shop / "vend").chmod(0o755)
    file, rows = shop / "office.db", shop / "rows.csv"
    sells(file)
    rows.write_bytes(b"name,steps\nnight,:50\n")
    before = file.read_bytes()
    file.chmod(0o666)
    rows.chmod(0)
    bring = ["import", "--file", "office.db", "--at", AT, "tariffs", "rows.csv"]
    expect(as_other(bring, shop), 1, b"", b"file\n")
    for mode in (0o444, 0o200, 0):
        file.chmod(mode)
        for words in (report_words("office.db"), report_words("office.db", "sales"),
                      sell_words("office.db", "A-2"), sell_words("office.db", "A-1")):
            expect(as_other(words, shop), *UNOPENED)
    # A folder in which nothing can be made has no room for a log.
    file.chmod(0o666)
    Path(f"{file}-wal").unlink(missing_ok=True)
    shop.chmod(0o555)
    for words in (report_words("office.db"), sell_words("office.db", "A-2"),
                  sell_words("new.db", "A-2")):
        expect(as_other(words, shop), *UNOPENED)
    expect(as_other(report_words("new.db"), shop), *MISSING)
    shop.chmod(0o777)
    if file.read_bytes() != before or (shop / "new.db").exists():
        raise SystemExit("wrong: a file that could not be written has changed")
    expect(as_other(sell_words("office.db", "A-1"), shop), 0, RECEIPT, b"")


def check_names(folder):
    """Names of every kind, links, folders and rights."""
    folder = folder / "names"
    folder.mkdir()
    count = check_spelling(folder)
    check_links(folder)
    check_folders(folder)
    check_rights(folder)
    print(f"names: {count} of every kind; links, folders, and files without rights as docs/USING.md "
          "has them")
