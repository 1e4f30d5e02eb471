"""Asks the program about plans without making a plate, for the tools that need its verdict."""
import os
import shutil
import subprocess
import tempfile

from pressroom.base.faults import Fault

HERE = os.path.dirname(os.path.dirname(os.path.abspath(__file__)))


def program_path(given: str | None) -> str:
    """The path of the program: as given, or by PLATEROOM, or on the path, or where the repository builds it."""
    built = os.path.join(HERE, "..", "..", "crates", "plateroom", "out", "plateroom")
    path = given or os.environ.get("PLATEROOM") or shutil.which("plateroom") or built
    if shutil.which(path) is None:
        raise Fault(f"no program at {os.path.normpath(path)}: name it with --program or in PLATEROOM")
    return path


class Asked:
    """Asks the program about plans without making a plate: its folder OUT can't be made."""

    def __init__(self, program: str) -> None:
        self.program = program
        self.folder = tempfile.TemporaryDirectory(prefix="plateroom-ask-")
        self.plan = os.path.join(self.folder.name, "plan.json")

    def text(self, text: bytes, files: str) -> tuple[str, int] | None:
        """Returns the program's line on a plan's text, and its status; None where plan and files are accepted."""
        with open(self.plan, "wb") as file:
            file.write(text)
        out = "/dev/null/out"
        try:
            answer = subprocess.run([self.program, "run", self.plan, files, out], capture_output=True)
        except OSError as error:
            raise Fault(f"{self.program} can't be started: {error.strerror}") from None
        line = answer.stderr.decode("utf-8", "replace").strip()
        if answer.returncode not in (0, 1, 3, 4, 5) or bool(line) == (answer.returncode < 2):
            raise Fault(
                f"{self.program} ended with status {answer.returncode} and said {line or 'nothing'!r}"
            )
        return (line, answer.returncode) if line else None
