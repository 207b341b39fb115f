"""What the programs of bin/ print, for comparing, and the fields of each kind."""
import os
import pathlib
import subprocess

ROOT = pathlib.Path(__file__).resolve().parents[2]
SAMPLES = ROOT / "samples"


def reference(name, data, *words):
    """What the program of bin/ makes of the bytes; REFERENCE names a folder of programs that are run as they are."""
    folder = os.environ.get("REFERENCE")
    path = f"{folder}/{name}_main" if folder else str(ROOT / "bin" / name)
    if not os.path.exists(path):
        raise FileNotFoundError(f"{path} is not there")
    done = subprocess.run([path, *words] if folder else [path, *(words or ["-"])], input=data, capture_output=True, check=False)
    return done.stdout, done.stderr.decode()


def kinds():
    """The fields of each kind, by the stored output of bin/kinds."""
    found = {}
    for row in (ROOT / "crates/kinds_main/stdout").read_bytes().decode().split("\r\n")[1:]:
        if row:
            number, _, _, name, _, label, _, _, _, _, choices = row.split(",")[:11]
            found.setdefault((name, number), []).append((label, choices.split("|") if choices else []))
    return found


def figures(book):
    """Each figure of a book's records that is not 0, as (record or `group N`, column): what bin/kilograms prints of bin/records' grams."""
    head, *rows = [row.split(",") for row in reference("records", book)[0].decode().split("\r\n") if row]
    found = []
    for row in rows:
        cells = dict(zip(head, row))
        owner = cells["record"] or f"group {cells['group']}"
        found += [((owner, name), cells[name]) for name in head[6:] if cells[name] not in ("", "0")]
    printed = reference("kilograms", "".join(f"{grams}\n" for _, grams in found).encode())[0].decode().split("\n")
    return dict(zip([place for place, _ in found], printed))
