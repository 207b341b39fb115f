"""web/test/mutants.py pure|browser: wrong versions, each with one place of one module changed (web/test/mutants). The test that each names refuses
it: a version that passes, or a test that can't run, ends this with status 1. Their tests ran on the right version before."""
import concurrent.futures
import os
import subprocess
import sys
import tempfile

from reference import ROOT

EDITS = sorted((ROOT / "web/test/mutants").glob("*.edit"))
PATIENCE = "10"  # seconds for what a wrong version never does
AT_A_TIME = 2


def test_of(edit):
    return edit.read_text().split("\n")[1].split("test: ")[1]


def ran(words, **more):
    done = subprocess.run(words, cwd=ROOT, env={**os.environ, **more}, capture_output=True, text=True, check=False)
    return done.returncode, done.stdout + done.stderr


def pure(edit, folder):
    status, said = ran([str(ROOT / "web/test/mutate"), str(edit), f"{folder}/web"])
    if status != 0:
        return None, said
    status, said = ran(["node", "web/test/pure.mjs", f"{folder}/web"])
    return (said.split("\n")[0] if status != 0 and said.startswith("failed: ") else None), said


def browser(edit, folder):
    """The programs are those of the page that was built, as they stand there."""
    page = f"{folder}/mutant.html"
    status, said = ran(["web/build", page], MUTATE=str(edit), WASM=os.environ["PAGE"])
    if status != 0:
        return None, said
    name = test_of(edit)
    _, said = ran([sys.executable, "web/test/run.py", name], PAGE=page, PATIENCE=PATIENCE)
    found = [line for line in said.split("\n") if line.startswith(f"{name}: failed: ")]
    return (found[0] if found else None), said


def tried(edit, how):
    with tempfile.TemporaryDirectory() as folder:
        refused, said = how(edit, folder)
    name = edit.relative_to(ROOT)
    print(f"{name}: refused ({refused[:150]})" if refused else f"{name}: nothing refuses it: {said}", flush=True)
    return refused is not None


def main(which):
    how, edits = {"pure": (pure, [edit for edit in EDITS if test_of(edit) == "pure"]),
                  "browser": (browser, [edit for edit in EDITS if test_of(edit) != "pure"])}[which]
    with concurrent.futures.ThreadPoolExecutor(AT_A_TIME) as pool:
        passed = list(pool.map(lambda edit: tried(edit, how), edits))
    print(f"wrong versions, {which}: {sum(passed)} refused, {len(passed) - sum(passed)} not")
    return 0 if all(passed) and passed else 1


if __name__ == "__main__":
    sys.exit(main(sys.argv[1]))
