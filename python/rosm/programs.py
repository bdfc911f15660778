"""The program rosm_debug as what answers debugging scripts, in a process that can be ended."""

from __future__ import annotations

import subprocess
from dataclasses import dataclass, field

from .native import Answer, ScriptError, Settings

# statuses with which the program says on standard error why it answers nothing
REFUSED = (2, 4)


@dataclass
class ProgramEngine:
    """The program with images. `remarks` are the lines that it has written to standard error."""

    program: str
    images: tuple[str, ...] = ()
    remarks: list[str] = field(default_factory=list)

    def __call__(self, script: bytes, settings: Settings) -> Answer:
        return self.output("json", script, settings)

    def output(self, form: str, script: bytes, settings: Settings) -> Answer:
        """What it writes in a form. ScriptError: it writes nothing, and why.

        KeyboardInterrupt ends the program, too.
        """
        sizes = {"pages": settings.pages, "app": settings.app, "rma": settings.rma, "budget": settings.budget}
        options = [word for name, value in sizes.items() for word in (f"--{name}", str(value))]
        words = [self.program, f"--{form}", *options, "--", *self.images]
        pipes = {"stdin": subprocess.PIPE, "stdout": subprocess.PIPE, "stderr": subprocess.PIPE}
        with subprocess.Popen(words, **pipes) as process:  # type: ignore[call-overload]
            try:
                out, errors = process.communicate(script)
            except KeyboardInterrupt:
                process.kill()
                raise
        lines = errors.decode("utf-8", "replace").splitlines()
        self.remarks += [line for line in lines if line not in self.remarks]
        if process.returncode in REFUSED and not out:
            raise ScriptError(lines[-1] if lines else f"{self.program} ends with status {process.returncode}")
        if process.returncode < 0 or not out:
            raise ScriptError(f"{self.program} ends with status {process.returncode}: {' '.join(lines)}")
        return Answer(process.returncode, out.decode("latin-1"))
