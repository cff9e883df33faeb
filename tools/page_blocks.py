"""Which script runs each block of commands of the pages: a part of tools/check_pages. It is no script of its own.

Blocks in fences count, and indented ones. A block is run by tools/check_pages, if it is marked; or it is among those
that another script takes from its page, which that script's own code gives here, without running them; or its commands
are those of such a block. All others stand in `NOT_RUN`, each with why."""
import contextlib
import io
import re
import sys
from importlib.machinery import SourceFileLoader
from importlib.util import module_from_spec, spec_from_loader
from types import SimpleNamespace
from unittest.mock import patch

from page_rows import readme_examples, sale_at_desk
from program import TOP
from shared import same

# Blocks that nothing runs as they are written, by their page and how they begin.
NOT_RUN = {
    ("README.md", "git checkout "): "it takes the files of the release; tools/check_program runs ./day",
    ("bench/README.md", "bench/run "): "a run takes minutes, and nothing else may run beside it",
    ("docs/DESK.md", "./vend serve "): "tools/check_desk begins its desks at ports that are free",
    ("docs/DESK.md", "curl --cacert "): "a form: the order is left out, and curl asks for a password",
    ("docs/GROWING.md", "for d in "): "it asks two desks that were just filled; tools/check_install asks each",
    ("docs/GROWING.md", "vend-compare --log "): "it reads a log that two desks wrote: tools/two_writers makes them",
    ("docs/GROWING.md", "curl -fsS "): "it is for another machine, with a cashier of its own",
    ("docs/GROWING.md", "vend-compare office.csv "): "tools/joint_shop.py runs it with names of its own",
}
COMMANDS = {"sh", "console"}


class Enough(Exception):
    """A script has given a block, and is not to go on."""


def blocks_on(text):
    """The blocks of commands of a page: whether each is marked as run by tools/check_pages, and its lines."""
    fence, marks, found, before, deep, indented = None, "", [], "", 4, None
    for line in text.splitlines():
        indent = len(line) - len(line.lstrip(" "))
        if fence is not None:
            if line.strip() == "```":
                if fence[0] in COMMANDS:
                    found.append((fence[1], "\n".join(fence[2])))
                fence = None
            else:
                fence[2].append(line)
        elif line.strip().startswith("```"):
            fence, indented = (line.strip()[3:], before == "<!-- run -->", []), None
        elif line.strip() and indent >= deep and (indented is not None or not before.strip()):
            if indented is None:
                indented = []
                found.append((False, indented))
            indented.append(line)
        elif line.strip():
            # In a list's item a block is indented by four more than the item's words.
            item, indented = re.match(r" *(?:[-*]|\d+\.) +", line), None
            deep = len(item[0]) + 4 if item else deep if indent else 4
        before = line
    return [(is_run, block if isinstance(block, str) else "\n".join(block)) for is_run, block in found]


def commands_of(block):
    """The lines of a block without indents and comments."""
    return [it for it in (re.sub(r"(^|\s+)# .*$", "", line).strip() for line in block.splitlines()) if it]


def loaded(name):
    """A script of tools/ as a module, so that nothing of it runs."""
    loader = SourceFileLoader(name, str(TOP / "tools" / name))
    module = module_from_spec(spec_from_loader(name, loader))
    sys.modules[name] = module
    loader.exec_module(module)
    return module


def given(act, *names):
    """What a function gives to the first of these calls of a shop or machine that it comes to."""
    kept = []

    def take(*words, **_):
        kept.extend(words)
        raise Enough

    quiet = lambda *_, **__: None
    seller = SimpleNamespace(ask=quiet, shell=take)
    shop = SimpleNamespace(begin=quiet, install_package=quiet, seller=lambda: seller, **dict.fromkeys(names, take))
    with contextlib.suppress(Enough):
        act(shop)
    return kept


def taken_from_install():
    """The blocks that tools/check_install runs, by page."""
    install = loaded("check_install")
    for page in install.PAGES:
        blocks = []
        install.run_page(SimpleNamespace(block=blocks.append), page, {})
        yield str(page.relative_to(TOP)), blocks


def taken_from_machines():
    """The blocks that tools/check_machines runs: those under the headings with which it begins, of which each names a
    machine, and the two for what comes later."""
    machines = loaded("check_machines")
    with patch.object(machines, "measure"):
        headings = given(machines.set_up, "run_blocks")
    blocks = []
    member = lambda name: SimpleNamespace(name_in_network=name, shell=lambda text, **_: blocks.append(text))
    shop = SimpleNamespace(members=[member(f"office-{number}") for number in (1, 2, 3)],
                           on_all=lambda where, act: [*map(act, where)])
    with contextlib.redirect_stdout(io.StringIO()):
        machines.Shop.run_blocks(shop, *headings)
    blocks += given(machines.restore) + given(machines.Shop.run_heal)
    return str(machines.PAGE.relative_to(TOP)), blocks


def taken_from_desk():
    """The lines that tools/check_desk gives to a shell, of docs/DESK.md."""
    desk, ran = loaded("check_desk"), []

    class Untried:
        port, used = 8080, 0

        def __init__(self, *_):
            pass

        def __enter__(self):
            return self

        def __exit__(self, *_):
            pass

        def finish(self):
            pass

    def run(words, **_):
        ran.append(words[-1].rpartition(" --silent ")[0])
        return SimpleNamespace(stdout="")

    with patch.multiple(desk, new_office=lambda *_, **__: None, Desk=Untried, same=lambda *_: None,
                        subprocess=SimpleNamespace(run=run)), contextlib.redirect_stdout(io.StringIO()):
        desk.check_page(None)
    return ran


def wrong_blocks(texts):
    """A line for each block of commands that nothing runs, and for each that is said to be so and is not there."""
    taken = dict([*taken_from_install(), taken_from_machines()])
    taken["README.md"] = [f"$ {command}" for command in readme_examples()[::2]]
    taken["docs/COMMANDS.md"] = [f"./vend {sale_at_desk()}"]
    taken["docs/DESK.md"] = [f"$ {command}" for command in taken_from_desk()]
    every = [commands_of(block) for blocks in taken.values() for block in blocks]
    lines = {page: {it for block in blocks for it in commands_of(block)} for page, blocks in taken.items()}
    excused, count = {}, 0
    for page, text in texts.items():
        for is_run, block in blocks_on(text):
            commands = commands_of(block)
            asked = [it for it in commands if it.startswith("$ ")]
            reason = [it for it in NOT_RUN if it[0] == page and block.strip().startswith(it[1])]
            is_taken = is_run or commands in every or bool(asked) and {*asked} <= lines.get(page, set())
            count += is_taken
            for it in reason:
                excused[it] = excused.get(it, 0) + 1
                if is_taken:
                    yield f"{page}: a block is said to be run by nothing, and is run: {it[1]}"
            if not is_taken and not reason:
                yield f"{page}: a block of commands that nothing runs: {commands[:1]}"
    yield from (f"{page}: {excused.get((page, front), 0)} blocks begin with {front}, which nothing runs"
                for page, front in NOT_RUN if excused.get((page, front)) != 1)
    print(f"pages: {count} blocks of commands that a script runs, {len(NOT_RUN)} others")
