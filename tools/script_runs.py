"""Runs of the program on scripts: what `explain`, `answers`, `sweep` and `shrink` share."""
import pathlib
import subprocess

PROGRAM = str(pathlib.Path(__file__).resolve().parent.parent / "ca")
WORKED = (0, 5, 6)  # the exit codes of a script that was worked: fine, stalled, budget spent


class Run:
    """A script that was worked: the exit code, the status line, and the output. A code of 0 has the status `fine`."""

    def __init__(self, program, script):
        done = subprocess.run([program, "script"], input=script, capture_output=True, check=False)
        self.code, self.output = done.returncode, done.stdout.decode()
        self.status = done.stderr.decode().strip().split("\n")[-1] or "fine"

    def is_worked(self):
        return self.code in WORKED
