"""folder_tests.py, to be imported: what tests of `dlm` over folders begin with. How a command ends is compared; tests run one by one, each in an empty folder of its own."""
import os
import subprocess
import tempfile

TOP = os.path.dirname(os.path.dirname(os.path.realpath(__file__)))
PROGRAM = os.path.join(TOP, "crates/dlm/out/dlm")
TESTS = []


def test(function):
    """Adds a test, which runs in an empty folder of its own."""
    TESTS.append(function)
    return function


class Differs(Exception):
    """What was wanted, and what came."""


def wants(what, got, wanted):
    if got != wanted:
        raise Differs(f"{what}: {got!r}, wanted {wanted!r}")


def run(text):
    """The status, the output and what was told, of words parted by single spaces."""
    try:
        ended = subprocess.run([PROGRAM, *text.split(" ")], stdin=subprocess.DEVNULL, capture_output=True, check=False, text=True, timeout=600)
    except subprocess.TimeoutExpired:
        raise Differs(f"`{text}`: does not end") from None
    return ended.returncode, ended.stdout, ended.stderr


def ends(text, status, printed, told):
    """The words end with this status, print the one text and tell the other."""
    wants(f"`{text}`", run(text), (status, printed, told))


def prints(text, printed):
    ends(text, 0, printed, "")


def refused(text, told):
    ends(text, 1, "", told)


def usage(text, told="dlm: usage\n"):
    ends(text, 2, "", told)


def run_tests(file, more=(), room=lambda name: None, said=""):
    """Runs the tests, and more of them by their names, and prints what differs and how many did. The folder of a test is made in the room for its name; none is
    where temporary files go. Returns the status."""
    tests_of = os.path.basename(file)
    if not os.access(PROGRAM, os.X_OK):
        print(f"{tests_of}: dlm is not built")
        return 1
    tests = [*((function.__name__, function) for function in TESTS), *more]
    wrong = 0
    for name, function in tests:
        with tempfile.TemporaryDirectory(dir=room(name)) as folder:
            os.chdir(folder)
            try:
                function()
            except Differs as difference:
                print(f"{name}{said}: {difference}")
                wrong += 1
            os.chdir(TOP)
    print(f"{tests_of}: {len(tests)} tests, {wrong} wrong")
    return 1 if wrong else 0
