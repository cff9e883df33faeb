"""The bounds of docs/OFFICE.md, each tried at its end and beyond it: a part of tools/check_pages. It is no script of
its own."""
import itertools
import re
import shutil

from program import METER, change, vend
from shared import rows_of_page, same, wrong

# Which columns a row of the bounds speaks of, by its first cell without its links.
COLUMNS = {
    "`number`, `shift`": [("shifts", "number"), ("sales", "number"), ("shift_totals", "shift")],
    "`opened`, `closed`, `moment`": [("shifts", "opened"), ("shifts", "closed"), ("sales", "moment")],
    "`tid`": [("sales", "tid"), ("last_ids", "tid")],
    "`rnd`": [("sales", "rnd")],
    "`tenths` of a sale, an amount": [("sales", "tenths")],
    "`tender`": [("sales", "tender")],
    "`price` of a sale": [("sales", "price")],
    "`price` of a step": [("tariff_steps", "price"), ("dated_steps", "price")],
    "`place`, `ends`, `month` of `month_tenths`": [
        ("tariff_steps", "place"), ("tariff_steps", "ends"), ("dated_steps", "place"), ("dated_steps", "ends"),
        ("month_tenths", "month")],
    "`day`": [("dated_steps", "day")],
    "`sales`, `tenths`, `cash` of totals": [
        ("shift_totals", "sales"), ("shift_totals", "tenths"), ("shift_totals", "cash"), ("month_tenths", "tenths")],
}
# Texts at the ends of their rules, and one beyond.
TEXTS = {
    "`name`, `tariff`, `ref`": ([("sales", "ref")], ["a", "-" * 32, "aZ-9"], ["", "a" * 33, "a_b", "a b", "é"]),
    "`operator`": ([("sales", "operator"), ("shifts", "operator")], ["a", "Z" * 16], ["", "a" * 17, "a-b"]),
    "`meter`": ([("last_ids", "meter")], ["00000000000", METER], [METER[:-1] + "4", METER[1:], "x" * 11]),
    "`secret`": ([("meters", "secret")], ["0" * 16, "f" * 16], ["0" * 15, "F" * 16, "g" * 16]),
    "`digits`": ([("sales", "digits")], ["0" * 20, "9" * 20], ["0" * 19, "0" * 21, "x" * 20]),
}


def check_bounds(offices):
    """A value at a bound keeps the rule `value`, and one beyond it breaks it. The office is that of the audits."""
    whole, count = offices.folder / "full.db", 0

    def breaks(table, column, value):
        """Whether this value in the first row of a table that has it alone breaks the rule."""
        file, free = offices.new(), ", price = 0" if column == "tender" else ""  # no price is above its tender
        shutil.copy(whole, file)
        change(file, f"PRAGMA foreign_keys=0; DELETE FROM sales WHERE '{table}' <> 'sales' OR number > 1;"
               "DELETE FROM shift_totals WHERE shift > 1; DELETE FROM shifts WHERE"
               f" '{table}.{column}' = 'shifts.number' AND number > 1; UPDATE {table} SET {column} = {value}{free}"
               f" WHERE rowid = (SELECT min(rowid) FROM {table}); {LOOSE}")
        ran = vend("audit", "--file", str(file))
        said = ran.stdout.decode()
        if ran.stderr or not said.startswith(("broken ", "sound ")):
            wrong(f"{table} {column} = {value}: {ran}")
        if said.endswith((" value\n", " month\n")) and not said.startswith(f"broken {table} "):
            wrong(f"{table} {column} = {value}: {said}")
        return said.endswith(" value\n")

    cells = {re.sub(r"\[([^\]]*)\]\([^)]*\)", r"\1", cell): (least, most)
             for cell, least, most in rows_of_page("OFFICE.md", "Column", "Least", "Greatest")}
    same([*cells], [*COLUMNS], "docs/OFFICE.md: the bounds that are tried")
    for cell, (least, most) in cells.items():
        for table, column in COLUMNS[cell]:
            greatest = 10 if most == "its tender" else int(most)
            inside, beyond = (int(least), greatest), (int(least) - 1, greatest + 1)
            for value, is_beyond in [*((it, False) for it in inside), *((it, True) for it in beyond)]:
                same(breaks(table, column, value), is_beyond, f"docs/OFFICE.md: {table} {column} = {value}")
                count += 1
    texts = [cell for cell, _ in rows_of_page("OFFICE.md", "Column", "Text")]
    same(texts, [*TEXTS], "docs/OFFICE.md: the texts that are tried")
    for columns, inside, beyond in TEXTS.values():
        for (table, column), (value, is_beyond) in itertools.product(
                columns, [*((it, False) for it in inside), *((it, True) for it in beyond)]):
            same(breaks(table, column, f"'{value}'"), is_beyond, f"docs/OFFICE.md: {table} {column} = '{value}'")
            count += 1
    for year, is_beyond in ((1993, False), (2014, False), (2035, False), (2013, True), (0, True)):
        same(breaks("meter_bases", "base", year), is_beyond, f"docs/OFFICE.md: a base of {year}")
    return count


# What else a row refers to is let go, so that the opening reads a file that keeps its references.
LOOSE = ("DELETE FROM meter_bases WHERE meter NOT IN (SELECT meter FROM meters);"
         "PRAGMA wal_checkpoint(TRUNCATE);")
