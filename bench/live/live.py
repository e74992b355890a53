"""What the benches of live runs share: scripts, runs in a folder of their own, and the parts of a run's text."""

import os
import re
import subprocess
import tempfile
from pathlib import Path

TOP = Path(__file__).resolve().parent.parent.parent
PROGRAM = TOP / "crates" / "pv_app" / "out" / "pv_app"


def build():
    """Builds the program where it has to be built."""
    subprocess.run([TOP / "build", "--if-changed"], check=True)


def folder(where=None):
    """A folder that is removed in the end: of the memory, or of this one's file system."""
    return tempfile.TemporaryDirectory(dir=where)


def live(workers, script, where):
    """The status, the text, and the most memory in MB of a live run in this folder."""
    with tempfile.TemporaryFile() as source, tempfile.TemporaryFile() as text:
        source.write(script.encode())
        source.seek(0)
        ran = subprocess.Popen([PROGRAM, "live", str(workers)], stdin=source, stdout=text, cwd=where)
        _, status, usage = os.wait4(ran.pid, 0)
        ran.returncode = os.waitstatus_to_exitcode(status)
        text.seek(0)
        return ran.returncode, text.read().decode(), usage.ru_maxrss / 1024


def memory():
    """The folder of the memory, where there is one."""
    return "/dev/shm" if Path("/dev/shm").is_dir() else None


def output(word, text, where=None):
    """The status and the text of another command."""
    ran = subprocess.run([PROGRAM, word], input=text.encode(), stdout=subprocess.PIPE, cwd=where)
    return ran.returncode, ran.stdout.decode()


def parts(text):
    """The schedule, the clients' lines and the answers of a run's text."""
    found = re.fullmatch(r"schedule\n(.*\n)clients\n(.*\n)answers\n(.*\n)", text, re.DOTALL)
    assert found, "other parts"
    return found.groups()


def looks(script, text):
    """What is wrong with what clients found who looked at items (`.ci/looks`), in the text of a run of the script; nothing, if all is right."""
    with tempfile.TemporaryDirectory(dir=memory()) as where:
        for name, content in ("script", script), ("text", text):
            (Path(where) / name).write_text(content)
        ran = subprocess.run([TOP / ".ci" / "looks", PROGRAM, "script", "text"], stdout=subprocess.PIPE, stderr=subprocess.STDOUT, cwd=where, text=True)
    return ran.stdout if ran.returncode else ""


def pairs(requests):
    """A script of 16 sites and 8 clients, each of which moves 1 so often between two sites of its own."""
    lines = ["sites 16"]
    for pair in range(8):
        lines += [f"item a{pair} {2 * pair} 100000", f"item b{pair} {2 * pair + 1} 0"]
    for pair in range(8):
        lines += [f"client {2 * pair}"] + [f"submit a{pair} := a{pair} - 1 ; b{pair} := b{pair} + 1"] * requests
    return "\n".join(lines) + "\n"


def cases(line):
    """The item of a line of `show`, and the values that it may have."""
    _, name, rest = line.split(" ", 2)
    return name, [int(case.split(" ")[0]) for case in rest.split(" ; ")]


def processors():
    return len(os.sched_getaffinity(0))
