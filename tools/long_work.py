"""What an export and an audit that take long tell a terminal: a part of tools/check_program. It is no
script of its own."""
import os
import subprocess
import time

from program import VEND, WAIT

# For so many seconds nobody takes the output, so that the first page is printed late: a line comes a
# second after the start, or later. The other second is for a computer that is slow to start a program.
PAUSE = 2


def read_all(reader):
    """All that comes of a pipe or a terminal, until nobody can write to it any more."""
    text = b""
    try:
        while piece := os.read(reader, 1 << 16):
            text += piece
    except OSError:
        pass  # So a terminal ends.
    os.close(reader)
    return text


def run_slowly(words, out, err=None, then=lambda: None):
    """How a run ends whose output nobody takes at first, and what came of its outputs, each of which is a
    reader and a writer. Without its own the error output goes where the output does. Something may be done
    before it is taken."""
    writers = [end[1] for end in (out, err) if end]
    running = subprocess.Popen([VEND, *words], stdin=subprocess.DEVNULL, stdout=writers[0],
                               stderr=writers[-1])
    for writer in writers:
        os.close(writer)
    time.sleep(PAUSE)
    then()
    texts = [read_all(end[0]) for end in (out, err) if end]
    return running.wait(WAIT), texts


def on_terminal(text):
    return text.replace(b"\n", b"\r\n")


def check_told(words, whole, sales):
    """The export tells a terminal how far it is, and nobody else; nor a terminal that shows it."""
    first, second = (on_terminal(b"%d of %d sales\n" % (page * 1000, sales)) for page in (1, 2))
    for what, ran, expected in (
        # The second page comes at once, and so without a line, if nothing holds the computer up.
        ("a terminal", run_slowly(words, os.pipe(), os.openpty()), ([whole, first], [whole, first + second])),
        ("a pipe", run_slowly(words, os.pipe(), os.pipe()), ([whole, b""],)),
        ("one terminal", run_slowly(words, os.openpty()), ([on_terminal(whole)],)),
    ):
        if ran[0] != 0 or ran[1] not in expected:
            raise SystemExit(f"wrong: an export to {what} ends {ran[0]}, and tells {ran[1][-1][:200]}")


def check_opened(desk, words, whole):
    """An audit that has waited for its file until a desk ends says on a terminal that it is open."""
    told = run_slowly(words, os.pipe(), os.openpty(), desk.finish)
    if told != (0, [whole, on_terminal(b"opened\n")]):
        raise SystemExit(f"wrong: an audit that waits ends so: {told}")
