"""What the scripts of this folder share: runs of the proved program on texts that they make, timed."""
import os
import re
import resource
import subprocess
import sys
import tempfile
import time

TOP = os.path.dirname(os.path.dirname(os.path.abspath(__file__)))
PROGRAM = os.path.join(TOP, "crates", "mesa_program", "out", "mesa_program")
HEAD, TAIL = "M: PROGRAM = BEGIN ", " END."
# An interface whose file is not there: such a text is answered directly after its syntax.
UNREAD = 'DIRECTORY Other: FROM "Other"; '
TOKEN = re.compile(r"[A-Za-z][A-Za-z0-9]*|[0-9]+[A-Z]?|\.\.|=>|<=|>=|\S")
COMMENT = re.compile(r"--.*?(?:--|\n|\Z)")
DONE, SPENT, REFUSED, ABSENT = 0, 2, 4, 5
GROWTH, FLOOR = 2.8, 0.02


def ended(folder, words, stack=None):
    """Returns status, seconds and greatest memory in KiB of one call with these words."""
    limit = (lambda: resource.setrlimit(resource.RLIMIT_STACK, (stack, stack))) if stack else None
    start = time.perf_counter()
    child = subprocess.Popen([PROGRAM, *words], cwd=folder, preexec_fn=limit, stdout=subprocess.DEVNULL, stderr=subprocess.DEVNULL)
    _, status, usage = os.wait4(child.pid, 0)
    return os.waitstatus_to_exitcode(status), time.perf_counter() - start, usage.ru_maxrss


def run(folder, turns, stack=None, file="M.mesa"):
    """The same of one run of this file."""
    return ended(folder, ["go", file, str(turns)], stack)


def least(folder, status, *words):
    """Returns the least seconds and the greatest memory of three calls with these words, which must end with this status."""
    calls = [ended(folder, words) for _ in range(3)]
    if any(call[0] != status for call in calls):
        sys.exit(f"{' '.join(words)}: statuses {[call[0] for call in calls]} in the place of {status}")
    return min(took for _, took, _ in calls), max(peak for _, _, peak in calls)


def written(folder, text):
    with open(os.path.join(folder, "M.mesa"), "w", encoding="utf-8") as file:
        file.write(text)


def measured(text, wanted, turns=1):
    """The same of runs of a text."""
    with tempfile.TemporaryDirectory() as folder:
        written(folder, text)
        return least(folder, wanted, "go", "M.mesa", str(turns))


def least_stack(text, wanted):
    """Returns the least stack in KiB, to a power of two, with which the text ends with this status."""
    with tempfile.TemporaryDirectory() as folder:
        written(folder, text)
        for kib in (64, 128, 256, 512, 1024, 2048, 4096, 8192):
            if run(folder, 1, kib * 1024)[0] == wanted:
                return kib
    sys.exit("8 MiB of stack do not suffice")


def grown(before, after):
    return after / before if after > FLOOR else 0.0


def tabled(kinds, status, turns):
    """Prints a line for each kind of text, a name, what makes the text by its size, and the whole size; whether all grew as they may."""
    _, least = measured(HEAD + TAIL, DONE)
    fits = True
    for name, make, size in kinds:
        text = make(size)
        quarter, half = (measured(make(size // part), status, turns)[0] for part in (4, 2))
        whole, peak = measured(text, status, turns)
        count = len(TOKEN.findall(COMMENT.sub(" ", text)))
        growth = max(grown(quarter, half), grown(half, whole))
        fits = fits and growth <= GROWTH
        memory = (peak - least) * 1024 / count
        print(
            f"{name}: {len(text.encode())} bytes, {count} tokens, {quarter:.3f} s, {half:.3f} s and {whole:.3f} s, "
            f"growth {whole / half:.2f}, {memory:.0f} bytes a token, {peak / 1024:.1f} MiB in all" + ("" if growth <= GROWTH else "  TOO MUCH")
        )
    return fits


def wants_program():
    if not os.access(PROGRAM, os.X_OK):
        sys.exit("build the program first: ./mesa")


# What stands in a module, by its size: each is sound, and has much of one thing.
def variables(size):
    return "".join(f"v{k}: INTEGER ← {k % 100};" for k in range(size))


def uses(size):
    return "".join(f"v{k}: INTEGER;" for k in range(size)) + "".join(f"v{k} ← v{(7 * k) % size} + 1;" for k in range(size))


def elements(size):
    return "T: TYPE = {" + ", ".join(f"e{k}" for k in range(size)) + f"}}; t: T; t ← e{size - 1};"


def procedures(size):
    return "".join(f"p{k}: PROCEDURE [x: INTEGER] = BEGIN p{(k + 1) % size}[x] END;" for k in range(size))


def statements(size):
    return "a: INTEGER;" + "a←a+1;" * size


def arms(size):
    return "s: SIGNAL = CODE; p: PROCEDURE = BEGIN END;" + "p[! s => RESUME];" * size


def conditions(size):
    return "a, b: INTEGER;" + "IF a = b THEN a ← b ELSE b ← a * 2;" * size


def selections(size):
    return "a: INTEGER; SELECT a FROM " + "".join(f"{k % 30000} => a ← {k % 100};" for k in range(size)) + "ENDCASE;"


def deep_blocks(size):
    one = "".join(f"BEGIN x{k}: INTEGER ← {k};" for k in range(190)) + "x0 ← x189 " + "END " * 190 + ";"
    return "P: PROCEDURE = BEGIN " + one + "END;" if size < 2 else "".join(f"P{k}: PROCEDURE = BEGIN {one} END;" for k in range(size))


def deep_parentheses(size):
    return "a: INTEGER;" + ("a ← " + "(" * 190 + "1" + ")" * 190 + ";") * size


def operators(size):
    return "a, b, c: INTEGER; a ← 1" + " + b * c" * size + ";"


def records(size):
    return "r: RECORD [" + ", ".join(f"f{k}: INTEGER" for k in range(size)) + f"]; r.f{size - 1} ← 1;"


def element_uses(size):
    return "T: TYPE = {" + ", ".join(f"e{k}" for k in range(size)) + "}; t: T;" + "".join(f"t ← e{k};" for k in range(size))


def field_uses(size):
    return "r: RECORD [" + ", ".join(f"f{k}: INTEGER" for k in range(size)) + "];" + "".join(f"r.f{k} ← {k};" for k in range(size))


def strings(size):
    return "s: STRING;" + "".join(f's ← "t{k}";' for k in range(size))


SOUND = (
    ("variables", variables, 16384),
    ("variables and their uses", uses, 16384),
    ("elements", elements, 65536),
    ("procedures that call each other", procedures, 10000),
    ("statements of a block", statements, 100000),
    ("arms", arms, 10000),
    ("conditions", conditions, 24000),
    ("cases of a SELECT", selections, 16000),
    ("nested blocks with a name each", deep_blocks, 100),
    ("nested parentheses", deep_parentheses, 2600),
    ("operators in runs", operators, 8000),
    ("elements and their uses", element_uses, 3000),
    ("fields of a record", records, 16384),
    ("fields of a record and their uses", field_uses, 3000),
    ("string literals", strings, 40000),
)
