"""All directives by their names.

Words are directives in capitals or in small letters: `Entry`, in both, is any macro's name.
"""

from __future__ import annotations

from .control import CONTROL
from .data import DATA
from .naming import NAMING
from .remarks import REFUSED, REMARKS

DIRECTIVES = CONTROL | DATA | NAMING | REMARKS
DIRECTIVES |= {name.lower(): directive for name, directive in DIRECTIVES.items()}

__all__ = ["DIRECTIVES", "REFUSED"]
