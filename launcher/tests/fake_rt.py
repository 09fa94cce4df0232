"""A stub of `rt`: it keeps to the locks and folders of the real one, proves nothing, and writes down what it does.

FAIL names a crate that isn't proved, HOLD the seconds of a proof, PROGRAM the text of the program that is made.
"""

import fcntl
import os
import sys
import time

NAME = os.path.basename(os.getcwd())


def note(text):
    with open(os.environ["JOURNAL"], "a") as journal:
        journal.write(f"{text}\n")


def below():
    with open("../../crates.txt") as text:
        names = [line.partition(":")[0].strip() for line in text if line.strip()]
    with open("../../crates.txt") as text:
        uses = {line.partition(":")[0].strip(): line.partition(":")[2].split() for line in text if line.strip()}
    found = list(uses[NAME])
    for name in found:
        found += [it for it in uses.get(name, []) if it not in found]
    return [it for it in names if it in found]


def locked(names):
    held = []
    for name in names:
        held.append(os.open(f"../{name}", os.O_RDONLY))
        try:
            fcntl.flock(held[-1], fcntl.LOCK_EX | fcntl.LOCK_NB)
        except BlockingIOError:
            note(f"waits {NAME} for {name}")
            fcntl.flock(held[-1], fcntl.LOCK_EX)
    return held


def lib():
    lacking = [it for it in below() if not os.path.isfile(f"../{it}/out/rlib/stamp")]
    if lacking:
        note(f"lacks {NAME} {lacking[0]}")
    os.makedirs("out/incremental", exist_ok=True)
    with open("out/incremental/begun", "a") as kept:
        kept.write("once\n")
    time.sleep(0 if os.path.isfile("out/rlib/stamp") else float(os.environ.get("HOLD", "0")))
    if os.environ.get("FAIL") == NAME:
        print(*(f"line {it}" for it in range(1, 31)), sep="\n")
        sys.exit(1)
    os.makedirs("out/rlib", exist_ok=True)
    open("out/rlib/stamp", "w").close()


def run():
    note(" ".join(["libraries", *(it for it in below() if os.path.isfile(f"../{it}/out/rlib/stamp"))]))
    if os.environ.get("FAIL") == NAME:
        sys.exit("not proved")
    os.makedirs("out", exist_ok=True)
    with open(f"out/{NAME}", "w") as program:
        program.write(os.environ["PROGRAM"])
    os.chmod(f"out/{NAME}", 0o755)
    # Without words the program says its usage.
    sys.exit(2)


def tried():
    words = sys.argv[sys.argv.index("--") + 1 :]
    note(f"try {' '.join(sys.argv[1:-len(words)])} in {NAME}")
    status = 0
    sys.argv = ["program", *words]
    try:
        exec(os.environ["STUB"])
    except SystemExit as end:
        status = end.code
    sys.stdout.flush()
    print("checked: ended\nraces: not looked for\n", end="", file=sys.stderr)
    print(f"run=ended status={status} runners=1 races=unchecked proved=no", file=sys.stderr)
    sys.exit(status)


verb = sys.argv[1]
if verb == "try":
    tried()
held = locked([*below(), NAME])
note(f"begin {NAME}")
(lib if verb == "lib" else run)()
note(f"end {NAME}")
