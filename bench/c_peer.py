"""The peer in C, built beside the measurement from peer.c."""
import os
import subprocess
import sys
from pathlib import Path

from peer_office import read_texts

HERE = Path(__file__).resolve().parent
WANTED = "gcc and libsqlite3-dev"  # the packages of Debian


def build_peer(folder):
    """The words that start the C peer, and the version of its library; nothing where it cannot be
    built."""
    program = folder / "peer"
    try:
        built = subprocess.run([os.environ.get("CC", "cc"), "-std=gnu17", "-O2", "-o", program,
                                HERE / "peer.c", "-lsqlite3"], capture_output=True, text=True)
    except OSError as fault:
        print(f"bench: there is no C compiler ({fault}); install {WANTED}", file=sys.stderr)
        return None
    if built.returncode != 0:
        said = built.stderr.strip().splitlines()
        print(f"bench: peer.c is not built ({said[0] if said else 'no cause'}); install {WANTED}",
              file=sys.stderr)
        return None
    texts = folder / "texts"
    texts.write_text("".join(f"{name}\t{text}\n" for name, text in read_texts().items()))
    version = subprocess.run([program, "version"], check=True, capture_output=True, text=True)
    return [str(program), "--texts", str(texts)], version.stdout.strip()
