"""rosm: the store machine from Python, marks for exercises, a prompt, and readers of old sources."""

from .machine import Machine, MachineError, Unmapped
from .native import Answer, LibraryMissing, ScriptError, records, run

__all__ = ["Answer", "LibraryMissing", "Machine", "MachineError", "ScriptError", "Unmapped", "records", "run"]
