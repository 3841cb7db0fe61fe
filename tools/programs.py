"""The programs that the scripts of tests/ and bench/ run: the one that ./pdq would run, and what Rattle's own compiler made beside it."""
import functools
import os
import subprocess

TOP = os.path.dirname(os.path.dirname(os.path.realpath(__file__)))
BY_RATTLE = f"{TOP}/crates/pdq/out/pdq.by-rattle"
NONE = "no program is of the sources as they stand: `./pdq help` proves and builds one"
FIND = 'top=$1; . "$top/tools/program.sh"; find_program && printf %s "$program"'


@functools.lru_cache(maxsize=None)
def first():
    """The program of the sources as they stand, which was built here or is shipped, or None."""
    ran = subprocess.run(["bash", "-c", FIND, "bash", TOP], stdin=subprocess.DEVNULL, stdout=subprocess.PIPE)
    return os.fsdecode(ran.stdout) if ran.returncode == 0 else None


def last_change():
    """When a source of the program was last changed."""
    latest = 0.0
    for at, folders, files in os.walk(f"{TOP}/crates"):
        folders[:] = [name for name in folders if name != "out"]
        for name in files:
            if name.endswith((".rt", ".antt")):
                latest = max(latest, os.stat(f"{at}/{name}").st_mtime)
    return latest


def both():
    """The programs to run, and what is to be said of the second where it is left out, or of both."""
    program, name = first(), os.path.relpath(BY_RATTLE, TOP)
    if program is None:
        return [], [], [NONE]
    if os.path.dirname(program) != os.path.dirname(BY_RATTLE) or not os.access(BY_RATTLE, os.X_OK):
        return [program], [f"{name} is not there, or not beside the program that is run: `bash .ci/run` makes both"], []
    if os.stat(BY_RATTLE).st_mtime < last_change():
        return [program], [f"{name} is older than its sources: `bash .ci/run` makes it anew"], []
    return [program, BY_RATTLE], [], []
