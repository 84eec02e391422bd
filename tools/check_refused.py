#!/usr/bin/env python3
# Checks that the types turn down three programs, before any proof: they open a
# player on a bench that is not judged, on one that broke, or on one that was handed
# to another player. tools/client is a client that rt check has to accept, and each
# edit of it in tools/client/refused has to be refused by the one error that the edit
# names. Prints a line for each; the status is 0 if all is as it has to be. Works on
# a copy in a temporary folder. Usage: check_refused.py

import re
import shutil
import signal
import subprocess
import sys
import tempfile
from pathlib import Path

ROOT = Path(__file__).resolve().parent.parent
CLIENT = ROOT / "tools" / "client"
CLIENT_LINE = "client: fault charge automaton criterion bench player\n"
# a .rt file may stand in a crate alone, so those of the client have another name
SOURCE_ENDING = ".txt"
ERROR = re.compile(r"^(\S+?:\d+:\d+): error(?:\[([\w-]+)\])?: (.*)$", re.MULTILINE)
# the counts and the names for a proof that rt prints, which say nothing of a fault
COUNTS = re.compile(r"\s|library |statements |crate |logic /")
MOST_LINES = 20


class Wrong(Exception):
    """What is not as it has to be."""


class Edit:
    """A bad program as pairs of texts, and the error and the types that refuse it."""

    def __init__(self, path):
        self.pairs = []
        self.error = None
        self.types = []
        file = old = None
        for line in path.read_text(encoding="utf-8").splitlines():
            key, _, text = line.partition(":")
            text = text[1:]
            if key == "file":
                file = text
            elif key == "old":
                old = text
            elif key == "new":
                self.pairs.append((file, old, text))
            elif key == "error":
                self.error = text
            elif key == "type":
                self.types.append(text)
            elif line and not line.startswith("#"):
                raise Wrong(f"the edit has a line that is not read: {line}")
        if not self.pairs or not self.error or not self.types:
            raise Wrong("the edit lacks a pair old: and new:, a line error: or a line type:")

    def apply(self, crate):
        for file, old, new in self.pairs:
            if not file or not old or not (crate / file).is_file():
                raise Wrong(f"a pair has no old: text or no file: {file}")
            text = (crate / file).read_text(encoding="utf-8")
            if text.count(old) != 1:
                raise Wrong(f"an old: text is in {file} {text.count(old)} times, and not once: {old}")
            (crate / file).write_text(text.replace(old, new), encoding="utf-8")


def copy_repository(to):
    """The crates without what rt made of them, and a line for the client."""
    shutil.copytree(ROOT / "crates", to / "crates", ignore=shutil.ignore_patterns("out"))
    listed = (ROOT / "crates.txt").read_text(encoding="utf-8")
    (to / "crates.txt").write_text(listed + CLIENT_LINE, encoding="utf-8")
    (to / "crates" / "client" / "src").mkdir(parents=True)
    return to / "crates" / "client"


def write_client(crate):
    for path in CLIENT.glob(f"src/*.rt{SOURCE_ENDING}"):
        shutil.copyfile(path, crate / "src" / path.name[: -len(SOURCE_ENDING)])


def check(crate):
    """The status of rt check, and what it says."""
    ran = subprocess.run(
        ["rt", "check"],
        cwd=crate,
        stdin=subprocess.DEVNULL,
        stdout=subprocess.PIPE,
        stderr=subprocess.STDOUT,
        encoding="utf-8",
        errors="replace",
    )
    return ran.returncode, ran.stdout


def last_lines(said):
    lines = [line for line in said.splitlines() if not COUNTS.match(line)]
    return "\n".join(f"    {line}" for line in lines[-MOST_LINES:])


def accept(crate):
    """Checks the good client, and what it stands on where that is not built."""
    write_client(crate)
    status, said = check(crate)
    if status != 0:
        raise Wrong(f"NOT ACCEPTED, with status {status}; rt check says last:\n{last_lines(said)}")
    return "accepted"


def refuse(crate, path):
    """Checks that a bad program is refused by its one error, and answers that."""
    edit = Edit(path)
    write_client(crate)
    edit.apply(crate)
    status, said = check(crate)
    if status == 0:
        raise Wrong("NOT REFUSED: rt check accepts it")
    if "logic=not-proved" in said:
        raise Wrong(f"refused by a proof, and not by the types; rt check says last:\n{last_lines(said)}")
    found = ERROR.findall(said)
    if status != 1 or len(found) != 1:
        raise Wrong(f"not refused by one error; rt check says last:\n{last_lines(said)}")
    place, name, message = found[0]
    told = f"{place}: error[{name}]: {message}"
    if name != edit.error:
        raise Wrong(f"refused by another error than error[{edit.error}]: {told}")
    for named in edit.types:
        if not re.search(rf"\b{re.escape(named)}\b", message):
            raise Wrong(f"refused by an error that does not name {named}: {told}")
    return f"refused: {told}"


def is_right(name, call, *given):
    """Prints what comes of a call, and answers whether it is as it has to be."""
    try:
        print(f"{name}: {call(*given)}", flush=True)
        return True
    except Wrong as wrong:
        print(f"{name}: {wrong}", flush=True)
        return False


def check_all(crate):
    paths = sorted(CLIENT.glob("refused/*.edit"))
    if not paths:
        print(f"{CLIENT}/refused has no edit")
        return False
    # where the client itself is not accepted, the refusals say nothing
    if not is_right("client", accept, crate):
        return False
    return all([is_right(path.stem, refuse, crate, path) for path in paths])


def main():
    # so that the folder goes where the run is told to end
    signal.signal(signal.SIGTERM, lambda number, _: sys.exit(128 + number))
    with tempfile.TemporaryDirectory(prefix="ringbench-client-") as folder:
        right = check_all(copy_repository(Path(folder)))
    sys.exit(0 if right else 1)


if __name__ == "__main__":
    main()
