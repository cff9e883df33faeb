"""Whether the names on the pages of what is proved are those of the crates, by name and kind: a part of
tools/check_pages. It is no script of its own.

A small name in square brackets is a clause; behind the name of a law it is a clause of that law, or a field of a
record that the law's contract names. Elsewhere it is one of what its row or paragraph names, or else of what its
section names above it. A small name in round brackets is a definition, a function, a field, a lemma or
a crate. A capitalised name is a definition or a type of this repository, a module of definitions or lemmas, a name of
the scripts, or one of the toolchain, and then the page says so. A name that is a link to a source stands there. A pair
`CRATE/EDIT` is an edit, and so is each name under 'Wrong implementations' on a crate's page.

CONTRIBUTING.md shows a whole change, and docs/DEVELOPING.md lists and counts the files of such a change and has the
idioms of proofs: each line stands in its file, each file is in the list, the counts are right, and each idiom has its
example."""
import functools
import re
import subprocess
from collections import defaultdict

from functions import FUNCTION, TEXT, blank, end_of_function, indent_of
from program import TOP
from shared import quoted, rows_of_page

PAGES = ("docs/PROMISE.md", "docs/PROVED.md", "docs/DESIGN.md", "docs/OFFICE.md", "docs/DECISIONS.md",
         "docs/DEVELOPING.md", "docs/GROWING.md")
# The names of the toolchain that the pages use, and others: its crates, the file that lists the program's handles, a
# type of SQL, a field of HTTP, a type of Rust, and a name that stands for many.
TOOLCHAIN = {"HasCleanDisk", "Wary", "Unknown"}
OTHERS = {"HANDLES", "sqlite_disk", "sqlite_std_file", "sqlite_wal", "INT", "Date", "String", "NameTexts"}
FENCE = re.compile(r"^```.*?^```[ ]*$", re.DOTALL | re.MULTILINE)
DEFINED = re.compile(r"^ *(?:pub )?(?:abbrev|record|data|unfoldable) (?:pub )?(\w+)", re.MULTILINE)
MOST_OF_A_NAME = 3
CONSTANT = re.compile(r"^([A-Z][A-Z_]+) ?=", re.MULTILINE)
NAMED = re.compile(r"`(?:\w+::)*(\w+)`|\b(\w+_law)\b")
SOURCE = re.compile(r"\[([^\]]*)\]\(([^)#]+\.(?:rt|antt))\)")
ENSURED = re.compile(r"\bensures (\w+)")
FIELD = re.compile(r"^ +(?:pub )?(\w+) :", re.MULTILINE)
LAW = r"(\w+_law|receipt_once)"
COUNTS = ("None", "One", "Two", "Three", "Four", "Five", "Six", "Seven", "Eight", "Nine", "Ten", "Eleven", "Twelve")


def texts_of(pattern):
    return [file.read_text(encoding="utf-8") for file in sorted(TOP.glob(f"crates/*/{pattern}"))]


class Sources:
    """The names that the crates have: clauses by the function that has them, definitions with their texts."""

    def __init__(self):
        self.contracts, self.definitions, self.types, self.fields = defaultdict(str), defaultdict(str), set(), set()
        self.times, self.clauses_beside = defaultdict(int), defaultdict(set)
        for text in texts_of("src/**/*.rt"):
            # The clauses of a type are those of the source in which it stands.
            for name in re.findall(r"(?m)^(?:pub )?(?:struct|trait) (\w+)", text):
                self.clauses_beside[name] |= {*ENSURED.findall(text)}
            self.read_source(TEXT.sub(blank, text))
        for text in texts_of("specs/**/*.antt") + texts_of("proofs/**/*.antt"):
            places = [*DEFINED.finditer(text)]
            for found, after in zip(places, [*places[1:], None]):
                self.definitions[found[1]] += text[found.start():after.start() if after else len(text)]
            self.fields |= {*FIELD.findall(text)}
        files = [path for path in (TOP / "tools").iterdir() if path.is_file() and path.name != "page_names.py"]
        self.scripts = {name for path in [TOP / ".ci" / "run", *files]
                        for name in CONSTANT.findall(path.read_text(encoding="utf-8"))}
        self.lemmas = {name for text in texts_of("proofs/**/*.antt")
                       for name in re.findall(r"(?m)^ *(?:pub )?(\w+) :", text)}
        self.modules = {file.stem for kind in ("specs", "proofs") for file in TOP.glob(f"crates/*/{kind}/**/*.antt")}
        self.crates = {path.name for path in (TOP / "crates").iterdir()}
        self.edits = {file.stem if with_crate is None else f"{file.parts[-3]}/{file.stem}"
                      for file in TOP.glob("crates/*/*/*.edit") for with_crate in (None, True)}

    def read_source(self, text):
        self.types |= {*re.findall(r"\b(?:struct|enum|trait|type|const) ([A-Z]\w*)", text)}
        self.types |= {*re.findall(r"(?m)^ +([A-Z]\w*) *[({,]", text)}
        lines, at = text.split("\n"), 0
        while at < len(lines):
            found = FUNCTION.match(lines[at])
            if found:
                own = lines[at:end_of_function(lines, at)]
                body = next((place for place, line in enumerate(own)
                             if line.startswith("{", indent_of(lines[at]))), len(own))
                self.times[found[2]] += 1
                self.contracts[found[2]] += "\n".join(own[:body]) + "\n"
            at += 1

    def is_name(self, word):
        return word in self.definitions or word in self.types or word in self.modules

    @functools.lru_cache(maxsize=None)
    def clauses_of(self, law):
        """The clauses of a law, and the fields of the records that its contract names, or that they name."""
        found, words = {*ENSURED.findall(self.contracts[law])}, {*re.findall(r"\b[A-Z]\w*", self.contracts[law])}
        seen = set()
        for _ in range(4):
            words -= seen
            seen |= words
            texts = [self.definitions[word] for word in words if word in self.definitions]
            found |= {name for text in texts for name in FIELD.findall(text)}
            words = {word for text in texts for word in re.findall(r"\b[A-Z]\w*", text)}
        return found

    def clauses_by(self, text, folder):
        """The clauses of what a text names: of laws and functions, the fields of definitions, and the clauses of a
        source to which it links by other words."""
        names = {name for pair in NAMED.findall(text) for name in pair}
        # A word that many functions have for a name, or a crate, names none of them: it would have too many clauses.
        functions = {name for name in names & {*self.contracts} - self.crates if self.times[name] <= MOST_OF_A_NAME}
        found = {it for name in functions for it in self.clauses_of(name)}
        found |= {it for name in names & {*self.definitions} for it in FIELD.findall(self.definitions[name])}
        found |= {it for name in names & {*self.clauses_beside} for it in self.clauses_beside[name]}
        for words, path in SOURCE.findall(text):
            if "`" not in words and (folder / path).is_file():
                found |= {*ENSURED.findall((folder / path).read_text(encoding="utf-8"))}
        return found


def wrong_names(texts):
    """A line for each name that is none of the crates', or not of the kind that the page says."""
    sources, count = Sources(), 0
    for page, whole in texts.items():
        if page not in PAGES and not re.fullmatch(r"crates/\w+/README\.md", page):
            continue
        text = re.sub(r"\]\([^)]*\)", "]()", FENCE.sub("", whole))
        for law in re.findall(rf"`{LAW}`", text):
            count += 1
            if law not in sources.contracts:
                yield f"{page}: {law} is no function of the crates"
        for line, above in lines_with_sections(FENCE.sub("", whole)):
            plain_line = re.sub(r"\]\([^)]*\)", "]()", line)
            for before, inside in re.findall(r"([^\[\n]{0,60})\[(`[^\]]*)\](?!\()", plain_line):
                own = re.search(rf"`{LAW}`(?:\]\(\))?\)?[ ,]*$", before)
                for clause in re.findall(r"`([a-z_]+)`", inside):
                    count += 1
                    if page.startswith("crates/"):  # at last what the crate itself has
                        above = [*above, f"[]({'){}[]('.join(own_sources(page))})"]
                    there = (sources.clauses_of(own[1]) if own else sources.clauses_by(it, (TOP / page).parent)
                             for it in ([line] if own else [line, *above]))
                    if clause not in sources.crates and not any(clause in clauses for clauses in there):
                        yield f"{page}: [{clause}] is no clause of " + (own[1] if own else "what is named with it: "
                                                                        + line[:60])
        for words, path in SOURCE.findall(FENCE.sub("", whole)):
            file = (TOP / page).parent / path
            for name in quoted(words) if file.is_file() else []:
                count += 1
                if name.split("::")[-1] not in (file.name, file.stem) and not re.search(
                        rf"\b{re.escape(name.split('::')[-1])}\b", file.read_text(encoding="utf-8")):
                    yield f"{page}: {path} has no {name}"
        for word in {*re.findall(r"`([A-Z]\w*)`", text)}:
            count += 1
            if word in TOOLCHAIN:
                if "toolchain's" not in text:
                    yield f"{page}: it does not say that {word} is the toolchain's"
            elif word not in OTHERS | sources.scripts and not sources.is_name(word):
                yield f"{page}: {word} is nothing that the crates have"
        for word in (it for inside in re.findall(r"\(([^()]*)\)", text) for it in re.findall(r"`([a-z]\w*)`", inside)):
            count += 1
            if not (word in OTHERS or word in sources.crates or word in sources.fields or sources.is_name(word)
                    or word in sources.contracts or word in sources.lemmas):
                yield f"{page}: ({word}) is nothing that the crates have"
        for names in re.findall(r"\[Wrong implementations\]\([^)]*\): ([^\n]*?)\.(?: |$)", whole, ):
            for edit in quoted(names):
                count += 1
                if edit not in sources.edits:
                    yield f"{page}: {edit} is no edit"
        for edit in re.findall(r"`(\w+/\w+-\w+)`", whole):
            count += 1
            if edit not in sources.edits:
                yield f"{page}: {edit} is no edit"
    yield from wrong_witnesses()
    yield from wrong_gate_count(texts["docs/PROMISE.md"])
    yield from lost_clauses(texts["docs/PROMISE.md"])
    yield from missing_files()
    yield from wrong_counts(texts["CONTRIBUTING.md"], texts["docs/DEVELOPING.md"])
    yield from lost_columns(texts["docs/DEVELOPING.md"])
    yield from wrong_change(texts["CONTRIBUTING.md"], texts["docs/DEVELOPING.md"])
    yield from wrong_sums(texts["CONTRIBUTING.md"])
    yield from missing_examples()
    print(f"pages: {count} names of laws, clauses, definitions and edits")


def own_sources(page):
    """The sources of the crate of a page, from its folder."""
    folder = (TOP / page).parent
    return [path.relative_to(folder).as_posix() for path in folder.glob("src/**/*.rt")]


def lines_with_sections(text):
    """Each line of a page with what stands above it: in its section, and in those that this one is a part of."""
    starts, lines = [], text.split("\n")
    for at, line in enumerate(lines):
        level = len(line) - len(line.lstrip("#"))
        if level:
            starts = [it for it in starts if it[0] < level] + [(level, at)]
        yield line, ["\n".join(lines[start:at]) for _, start in reversed(starts[1:] or starts)]


def missing_files():
    """Each file that docs/DEVELOPING.md names for a change is in its crate, and each crate is one."""
    own = re.compile(r"[\w/]+")
    crates = []
    for cells in rows_of_page("DEVELOPING.md", "Crate", "Files"):
        crates = quoted(cells[0]) or crates
        for crate in crates:
            folder = TOP / "crates" / crate
            found = {file.relative_to(folder).with_suffix("").as_posix()
                     for kind in ("src", "specs", "proofs") for file in folder.glob(f"{kind}/**/*")}
            words = "\n".join(file.read_text(encoding="utf-8") for file in folder.glob("src/**/*.rt"))
            for name in filter(own.fullmatch, quoted(cells[1])):
                if not any(path.endswith(f"/{name}") for path in found) and name not in words:
                    yield f"docs/DEVELOPING.md: {crate} has no {name}"


def files_of_table(change, developing):
    """The files that the table of a change names, each with whether it always changes: what is in its place in `src`
    or `specs`, a module of both, and lemmas and texts in `proofs`. `if ..` holds to the end of its cell."""
    section = re.search(rf"^### {re.escape(change)}\n(.*?)^##", developing, re.DOTALL | re.MULTILINE | re.IGNORECASE)
    found, crate = {}, None
    for crates, cell in re.findall(r"^\|([^|]*)\|([^|]*)\|$", section[1] if section else "", re.MULTILINE):
        crate = (quoted(crates) or [crate])[0]
        before, condition, behind = cell.partition("if ")
        for part, always in ((before, True), (condition + behind, False)):
            for name in quoted(part):
                folder, own = TOP / "crates" / str(crate), name.rpartition("/")[2]
                module = name.removesuffix(own) + (own if own[0].isupper() else own.title().replace("_", ""))
                places = [folder / "src" / f"{name}.rt", folder / "specs" / f"{module}.antt"]
                if own.endswith(("Lemmas", "Texts")):
                    places += folder.glob(f"proofs/**/{own}.antt")
                found |= {place: always for place in places if place.is_file()}
    return found


def wrong_counts(contributing, developing):
    """The files of each change, counted as the last column of docs/DEVELOPING.md says."""
    for change, files, crates, way in rows_of_page("DEVELOPING.md", "Change", "Files", "Crates", "Counted as"):
        kinds = [f"crates/*/{kind}/**" for kind in ("src", "specs", "proofs")]
        if "files that name" in way:
            ran = subprocess.run(["git", "grep", "--untracked", "-lw", "-e", quoted(way)[0], "--", *kinds], cwd=TOP,
                                 capture_output=True, text=True)
            found = {TOP / path for path in ran.stdout.splitlines()}
        elif "#a-whole-change" in way:
            found = {TOP / path for path in change_shown(contributing)
                     if re.match(r"crates/\w+/(src|specs|proofs)/", path)}
        else:
            table = files_of_table(change, developing)
            found = {*table}
            said, at_times = re.search(r"(\d+) of them only if", way), sum(not always for always in table.values())
            if said and int(said[1]) != at_times:
                yield f"docs/DEVELOPING.md: {change}: {at_times} files change only if .., and not {said[1]}"
        counts = len(found), len({path.relative_to(TOP).parts[1] for path in found})
        if counts != (int(files), int(crates)):
            yield f"docs/DEVELOPING.md: {change}: {counts[0]} files in {counts[1]} crates, and not {files} in {crates}"


def lost_columns(developing):
    """Each source that names the columns of an export is among the files of a new column."""
    ran = subprocess.run(["git", "grep", "--untracked", "-lE", "number[ ,]moment[ ,]shift", "--", "crates"], cwd=TOP,
                         capture_output=True, text=True)
    table = files_of_table("A column of `sales`", developing)
    yield from (f"docs/DEVELOPING.md: a column of sales has no {path}" for path in ran.stdout.splitlines()
                if TOP / path not in table)


def wrong_witnesses():
    """The witnesses in the table of promises are those of PROVED.md. What stands in brackets behind one is a
    clause of a law of its row, or of the one that it is said to be of. Of a law that a row names as a whole a witness
    stands there, where it has any."""
    known = defaultdict(set)
    for law, witness in rows_of_page("PROVED.md", "Law", "Witness"):
        known[quoted(witness)[0]].add(quoted(law)[0])
    for promise, laws, witness, _ in rows_of_page("PROMISE.md", "The promise", "Law [clauses]", "Witness",
                                                  "A wrong program that was refused"):
        named = quoted(re.sub(r"\[[^]]*\]", "", witness))
        for name in named:
            if name not in known:
                yield f"docs/PROMISE.md: {name} is no witness in PROVED.md: {promise}"
        for law in re.findall(r"\[`(\w+)`\]\([^)]*\)(?! \[)", laws):
            own = {name for name, of in known.items() if law in of}
            if own and not own & {*named}:
                yield f"docs/PROMISE.md: {law} has a witness in PROVED.md, and none here: {promise}"
        for clauses, law in re.findall(r"\[(`[^]]*)\](?: of (\w+))?", witness):
            texts = [text_of_law(it) for it in ([law] if law else re.findall(r"\[`(\w+)`\]\(", laws))]
            for clause in quoted(clauses):
                if not any(has_clause(text, clause) for text in texts):
                    yield f"docs/PROMISE.md: {clause} is no clause of a law of its witness: {promise}"


def wrong_gate_count(text):
    """docs/PROMISE.md says how many of the wrong programs in its table the gate tries."""
    cells = [row[3] for row in rows_of_page("PROMISE.md", "The promise", "Law [clauses]", "Witness",
                                            "A wrong program that was refused")]
    pairs = [edit.split("/") for cell in cells for edit in quoted(cell)]
    count = sum((TOP / "crates" / crate / "must-fail" / f"{name}.edit").is_file() for crate, name in pairs)
    if f"{COUNTS[count]} of them are in `must-fail`" not in text:
        yield f"docs/PROMISE.md: {count} of its wrong programs are in must-fail"


def text_of_law(law):
    """The files of a law's clauses: those that docs/PROVED.md has for it, or else the file in which the law stands."""
    link = re.compile(r"\]\(([^)]*)\)")
    files = {quoted(it)[0]: link.findall(cell)
             for it, cell in rows_of_page("PROVED.md", "Law or function", "The file of its clauses") if quoted(it)}
    paths = [TOP / "docs" / file for file in files.get(law, [])] or [
        path for path in TOP.glob("crates/*/src/**/*.rt")
        if re.search(rf"pub fn {law}[<(]", path.read_text(encoding="utf-8"))]
    return "".join(path.read_text(encoding="utf-8") for path in paths)


def has_clause(text, clause):
    return re.search(rf"\b(pub|ensures) {clause} ", text)


def lost_clauses(text):
    """Each clause that docs/PROMISE.md names behind a law's link is in the files of the law's clauses."""
    for law, clauses in re.findall(r"\[`(\w+)`\]\([^)]*\) \[(`[^\]]*)\]", text):
        there = text_of_law(law)
        yield from (f"docs/PROMISE.md: {clause} of {law} is not in the file of its clauses"
                    for clause in quoted(clauses) if not has_clause(there, clause))


def change_shown(text):
    """The files of the change that a page shows, each with the lines that go into it."""
    shown, file = defaultdict(list), None
    for block in re.findall(r"^```diff\n(.*?)^```$", text, re.DOTALL | re.MULTILINE):
        for line in block.splitlines():
            if line.startswith("+++ "):
                file = shown[line.removeprefix("+++ ")]
            else:
                file.append(line.removeprefix("+").strip())
    return shown


def stands_in(line, lines):
    """A line of the change is one of the file; with ` ..` at its end it is the front of one."""
    return line in lines or line.endswith(" ..") and any(it.startswith(line[:-3]) for it in lines)


def plain(path):
    """`specs/commands/LookedUp.antt` and `commands/looked_up` are one file in a list."""
    return re.sub(r"^(src|specs|proofs)/|\.\w+$|_", "", path).lower()


def wrong_change(page, developing):
    """CONTRIBUTING.md shows a look-up: its lines are in the tree, and its files are those of a look-up."""
    listed = {}
    section = re.search(r"^### A look-up\n(.*?)^##", developing, re.DOTALL | re.MULTILINE)[1]
    crate = None
    for crates, files in re.findall(r"^\|([^|]*)\|([^|]*)\|$", section, re.MULTILINE):
        crate = (quoted(crates) or [crate])[0]
        listed |= {(crate, plain(name)): not files.startswith("if ") for name in quoted(files)}
    named = set()
    for path, lines in change_shown(page).items():
        if not (TOP / path).is_file():
            yield f"CONTRIBUTING.md: there is no {path}"
            continue
        there = {line.strip() for line in (TOP / path).read_text(encoding="utf-8").splitlines()}
        yield from (f"CONTRIBUTING.md: {path} has no line {line}" for line in lines if not stands_in(line, there))
        own = re.fullmatch(r"crates/(\w+)/((?:src|specs|proofs)/.*)", path)
        if own and not re.fullmatch(r"proofs/.*/Answers\.antt", own[2]):
            fits = {(crate, name) for crate, name in listed
                    if crate == own[1] and f"/{plain(own[2])}".endswith(f"/{name}")}
            named |= fits
            if not fits:
                yield f"docs/DEVELOPING.md: a look-up has no {path}, and CONTRIBUTING.md has it"
    for crate, name in sorted(place for place, always in listed.items() if always and place not in named):
        yield f"CONTRIBUTING.md: the change has no {name} of {crate}, and docs/DEVELOPING.md has it for a look-up"


def wrong_sums(page):
    """CONTRIBUTING.md says how many files its change takes, and how many of them and of others its search finds."""
    shown = {*change_shown(page)}
    inside = [path for path in shown if path.startswith("crates/")]
    crates, edits = (COUNTS[len({*it})].lower() for it in ([path.split("/")[1] for path in inside],
                                                          [path for path in inside if path.endswith(".edit")]))
    said = (f"A look-up takes {len(shown)} files: {len(inside)} in {crates} crates ({edits} of these are edits), and "
            f"{len(shown) - len(inside)} elsewhere.")
    if said not in page:
        yield f"CONTRIBUTING.md does not say: {said}"
    pattern, own, others = re.search(r"`git grep -iE '([^']+)'` finds (\d+) of these files. It also finds (\d+) others",
                                     page).groups()
    ran = subprocess.run(["git", "grep", "--untracked", "-liE", pattern], cwd=TOP, capture_output=True, text=True)
    found = {*ran.stdout.splitlines()}
    counts = len(found & shown), len(found - shown)
    if counts != (int(own), int(others)):
        yield f"CONTRIBUTING.md: its search finds {counts[0]} of its files, and {counts[1]} others"


def missing_examples():
    """Each idiom of proofs on docs/DEVELOPING.md has its example: a file, and names that stand in it."""
    for idiom, _, example in rows_of_page("DEVELOPING.md", "Idiom", "What it is for", "A good example"):
        path, *names = quoted(example)
        text = (TOP / "crates" / path).read_text(encoding="utf-8") if (TOP / "crates" / path).is_file() else ""
        yield from (f"docs/DEVELOPING.md: {idiom}: crates/{path} has no {name}"
                    for name in names or [path] if name not in text)
