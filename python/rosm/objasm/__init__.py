"""An assembler for sources that were written for ObjAsm and AAsm.

The source is read in passes until no address moves; the last pass's bytes and messages count.
`assemble_files` is the way in.
"""

from .assembler import Options
from .passes import assemble_files

__all__ = ["Options", "assemble_files"]
