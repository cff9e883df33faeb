"""What docs/USING.md says in words that its commands print: a part of tools/check_pages. It is no script of its own.

It says so as "`COMMAND ..` prints `SHAPE`", of the block above as "It prints `SHAPE`" or "Each prints `SHAPE`", or
by a list of shapes under "It prints ..:". In a shape `..` is any text, and a single small letter a number."""
import re
import subprocess

from program import TOP
from shared import quoted

PAGE = "docs/USING.md"
SECONDS = 60
PART = re.compile(r"^<!-- run -->\n```sh\n(.*?)^```$|^(#+ [^\n]*)$", re.DOTALL | re.MULTILINE)
CLAIM = re.compile(r"(?:`(?:\./vend )?([a-z]+)[^`]*`|\b(?:It|Each)) (?:must )?prints? `([^`]+)`")
LISTED = re.compile(r"It prints [^`\n]*:\n\n((?:- .*\n)+)")


def fits(line, shape):
    shape = re.sub(r"\b[a-z]\b", r"\\d+", re.escape(shape).replace(r"\.\.", ".*"))
    return re.fullmatch(shape, line) is not None


def heads_of(title):
    """How the lines of a text begin that docs/TEXTS.md shows: a word in capitals, or none."""
    page = (TOP / "docs" / "TEXTS.md").read_text(encoding="utf-8")
    return heads(re.search(rf"^## {title}\n+```\n(.*?)^```", page, re.DOTALL | re.MULTILINE)[1])


def heads(text):
    return [re.match(r"[A-Z]*", line)[0] for line in text.splitlines()]


def parts_of(page):
    """Each block that is run, with the words up to the next block or heading."""
    places = [*PART.finditer(page)]
    for place, after in zip(places, [*places[1:], None]):
        if place[1]:
            yield place[1], page[place.end():after.start() if after else len(page)]


def wrong_shown(page, folder):
    """A line for each command that printed something else than the page says."""
    every = [(name, shape) for name, shape in CLAIM.findall(page) if name]
    count = 0
    for block, words in parts_of(page):
        here = [(name, shape) for name, shape in CLAIM.findall(words)]
        for line in block.splitlines():
            ran = subprocess.run(["bash", "-euc", line], cwd=folder, capture_output=True, text=True, timeout=SECONDS,
                                 stdin=subprocess.DEVNULL)
            command = line.split()[1] if line.startswith("./vend ") else ""
            printed = ran.stdout.splitlines()
            listed = LISTED.search(words) if f"`{command}`" in words else None
            if command == "sell":
                shapes, is_right = [], heads(ran.stdout) == heads_of("Receipt")
            elif "--kind shift" in line:
                shapes, is_right = [], heads(ran.stdout) == heads_of("Shift report")
            elif listed:
                items = listed[1].splitlines()
                shapes = [quoted(it)[0] for it in items if it.startswith("- `")]
                last = [quoted(it)[0] for it in items if "`, last" in it]
                is_right = all(any(fits(it, shape) for shape in shapes) for it in printed) and \
                    all(fits(printed[-1], shape) for shape in last)
            else:
                shapes = [shape for name, shape in here if name in ("", command)]
                is_near = bool(shapes)
                shapes = shapes or [shape for name, shape in every if name == command]
                fit = [[fits(it, shape) for shape in shapes] for it in printed]
                is_right = not shapes or printed != [] and all(map(all if is_near else any, fit))
                count -= not shapes
            count += 1
            if ran.returncode or not is_right:
                yield f"{PAGE}: {line} printed {ran.stdout}{ran.stderr}and not {shapes or 'what docs/TEXTS.md shows'}"
    print(f"{PAGE}: {count} outputs as it says in words")
