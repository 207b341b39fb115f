"""web/test/run.py [NAME...]: the tests in the browser, all or those named, two at a time; those that print times by themselves. Each prints a line; a
test that can't run says so and is no pass."""
import concurrent.futures
import sys
import time
import traceback

import bounds
import correcting
import entering
import keeping
import looks
import mending
import office

MODULES = (entering, correcting, mending, keeping, bounds, office, looks)
TESTS = {name[5:]: test for module in MODULES for name, test in vars(module).items() if name.startswith("test_")}
ALONE = ("large", "opening")
AT_A_TIME = 2


def place_of(error):
    """The line of a test in which it ended."""
    place = [each for each in traceback.extract_tb(error.__traceback__) if "/web/test/" in each.filename][-1]
    return place, f"{place.filename.rsplit('/', 1)[-1]}:{place.lineno}"


def tried(name):
    """Gives passed, failed or unable."""
    start = time.time()
    try:
        TESTS[name]()
    except FileNotFoundError as error:
        print(f"{name}: could not run: {error}", flush=True)
        return "unable"
    except AssertionError as error:
        place, words = place_of(error)
        print(f"{name}: failed: {str(error) or place.line} ({words})", flush=True)
        return "failed"
    except Exception as error:  # the browser's own
        print(f"{name}: failed: {type(error).__name__}: {str(error).splitlines()[0] if str(error) else ''} ({place_of(error)[1]})", flush=True)
        return "failed"
    print(f"{name}: passed, {time.time() - start:.1f} s", flush=True)
    return "passed"


def main(names):
    names = names or list(TESTS)
    with concurrent.futures.ThreadPoolExecutor(AT_A_TIME) as pool:
        ended = list(pool.map(tried, [name for name in names if name not in ALONE]))
    ended += [tried(name) for name in names if name in ALONE]
    print(f"browser: {ended.count('passed')} passed, {ended.count('failed')} failed, {ended.count('unable')} could not run")
    return 0 if ended.count("passed") == len(names) > 0 else 1


if __name__ == "__main__":
    sys.exit(main(sys.argv[1:]))
