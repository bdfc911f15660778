"""The keywords of BBC BASIC V: text to tokens by BASIC's own rule, and tokens to text.

A line of a program is kept as a string in which each keyword is one character that nothing else
can be; all other characters stand for bytes. So `MOVEQ` is the keyword MOVE and the letter Q, and
`TOtal` is TO and the name tal, as they are on the machine.
"""

from __future__ import annotations

import re
from functools import lru_cache

ONE = 0xE000  # a keyword of one byte, as 0xF1 for PRINT
AFTER_C6 = 0xE100  # functions of two bytes
AFTER_C7 = 0xE200  # commands
AFTER_C8 = 0xE300  # statements

# Name, byte, shortest abbreviation (without its point; none where it can't be shortened).
_ONE_BYTE = """
OTHERWISE 7F OT, AND 80 A, DIV 81 -, EOR 82 -, MOD 83 -, OR 84 -, ERROR 85 ERR, LINE 86 LIN,
OFF 87 -, STEP 88 S, SPC 89 -, TAB( 8A -, ELSE 8B EL, THEN 8C TH, OPENIN 8E OP, PTR 8F PT,
PAGE 90 PA, TIME 91 TI, LOMEM 92 LOM, HIMEM 93 H, ABS 94 -, ACS 95 -, ADVAL 96 AD, ASC 97 -,
ASN 98 -, ATN 99 -, BGET 9A B, COS 9B -, COUNT 9C COU, DEG 9D -, ERL 9E -, ERR 9F -, EVAL A0 EV,
EXP A1 -, EXT A2 -, FALSE A3 FA, FN A4 -, GET A5 -, INKEY A6 -, INSTR( A7 INS, INT A8 -, LEN A9 -,
LN AA -, LOG AB -, NOT AC -, OPENUP AD -, OPENOUT AE OPENO, PI AF -, POINT( B0 PO, POS B1 -,
RAD B2 -, RND B3 RN, SGN B4 -, SIN B5 -, SQR B6 -, TAN B7 T, TO B8 -, TRUE B9 -, USR BA -,
VAL BB VA, VPOS BC VP, CHR$ BD -, GET$ BE GE, INKEY$ BF INK, LEFT$( C0 LE, MID$( C1 M,
RIGHT$( C2 RI, STR$ C3 STR, STRING$( C4 STRI, EOF C5 -, WHEN C9 WHE, OF CA -, ENDCASE CB ENDC,
ENDIF CD ENDI, ENDWHILE CE ENDW, SOUND D4 SO, BPUT D5 BP, CALL D6 CA, CHAIN D7 CH, CLEAR D8 CL,
CLOSE D9 CLO, CLG DA -, CLS DB -, DATA DC D, DEF DD -, DIM DE -, DRAW DF DR, END E0 -,
ENDPROC E1 E, ENVELOPE E2 ENV, FOR E3 F, GOSUB E4 GOS, GOTO E5 G, GCOL E6 GC, IF E7 -,
INPUT E8 I, LET E9 -, LOCAL EA LOC, MODE EB MO, MOVE EC MOV, NEXT ED N, ON EE -, VDU EF V,
PLOT F0 PL, PRINT F1 P, PROC F2 PRO, READ F3 REA, REM F4 -, REPEAT F5 REP, REPORT F6 REPO,
RESTORE F7 RES, RETURN F8 R, RUN F9 -, STOP FA STO, COLOUR FB C, COLOR FB -, TRACE FC TR,
UNTIL FD U, WIDTH FE WI, OSCLI FF OS"""
_FUNCTIONS = "SUM 8E SU, BEAT 8F -"
_COMMANDS = """
APPEND 8E AP, AUTO 8F AU, CRUNCH 90 CR, DELETE 91 DEL, EDIT 92 ED, HELP 93 HE, LIST 94 L,
LOAD 95 LO, LVAR 96 LV, NEW 97 -, OLD 98 O, RENUMBER 99 REN, SAVE 9A SA, TEXTLOAD 9B TE,
TEXTSAVE 9C TEXTS, TWIN 9D TW, TWINO 9E -"""
_STATEMENTS = """
CASE 8E -, CIRCLE 8F CI, FILL 90 FI, ORIGIN 91 OR, POINT 92 PO, RECTANGLE 93 REC, SWAP 94 SW,
WHILE 95 W, WAIT 96 WA, MOUSE 97 MOU, QUIT 98 Q, SYS 99 SY, INSTALL 9A INS, LIBRARY 9B LIB,
TINT 9C TIN, ELLIPSE 9D ELL, BEATS 9E BEA, TEMPO 9F TEM, VOICES A0 VO, VOICE A1 -, STEREO A2 STE,
OVERLAY A3 OV"""

# Keywords that are none where a letter, a digit or `_` follows.
ALONE = frozenset(
    "BGET BPUT CLEAR CLG CLOSE CLS COUNT END ENDCASE ENDIF ENDPROC ENDWHILE EOF ERL ERR EXT FALSE"
    " HIMEM LOMEM NEW OLD PAGE PI POS PTR QUIT REPORT RETURN RND RUN STOP TIME TRUE VPOS BEATS BEAT"
    " APPEND AUTO CRUNCH DELETE EDIT HELP LIST LVAR RENUMBER TEXTLOAD TEXTSAVE TWIN TWINO".split()
)
# Behind these a number is that of a line, and is kept in a form of its own.
LINE_NUMBER = frozenset(("GOTO", "GOSUB", "RESTORE", "THEN", "ELSE", "TRACE", "ERROR"))
# Behind these a statement begins, so that `*` is a command.
STARTS = frozenset(("THEN", "ELSE", "REPEAT", "OTHERWISE", "ERROR", "ENDIF", "ENDCASE"))
# At the start of a statement these have another byte: 0x40 more.
PSEUDO = frozenset(("PTR", "PAGE", "TIME", "LOMEM", "HIMEM"))
BLOCK_ELSE = 0xCC  # ELSE where it is first on its line

KEYWORDS: dict[str, str] = {}  # name -> its character
NAMES: dict[str, str] = {}  # character -> name
_SPELLINGS: dict[str, str] = {}  # every spelling, abbreviations with their point -> name


def _read_tables() -> None:
    tables = ((ONE, _ONE_BYTE), (AFTER_C6, _FUNCTIONS), (AFTER_C7, _COMMANDS), (AFTER_C8, _STATEMENTS))
    shortened = []
    for base, table in tables:
        for row in table.split(","):
            name, code, short = row.split()
            character = chr(base + int(code, 16))
            KEYWORDS[name] = character
            NAMES.setdefault(character, name)
            _SPELLINGS[name] = name
            if short != "-":
                shortened.append((name, short))
    for name, short in shortened:
        for length in range(len(short), len(name)):
            _SPELLINGS.setdefault(name[:length] + ".", name)


_read_tables()

T = KEYWORDS  # the short name that the modules of this package use
_LONGEST = max(map(len, _SPELLINGS))
_WORD = re.compile(r"[A-Za-z0-9_`@]+")
_CHUNK = re.compile(r"[A-Z][A-Za-z0-9_`@]*(?:\$\(?|\(|\.)?")
_HEX = re.compile(r"&[0-9A-F]*")
_BINARY = re.compile(r"%[01]+")
_NUMBER = re.compile(r"[0-9]*\.?[0-9]*(?:E[+-]?[0-9]+)?")
_STRING = re.compile(r'"[^"]*"?')
_IN_WORD = re.compile(r"[A-Za-z0-9_`]")


def keyword_at(text: str, at: int) -> tuple[str, int] | None:
    """The keyword that a word at this place begins with, and where it ends."""
    for length in range(min(_LONGEST, len(text) - at), 1, -1):
        name = _SPELLINGS.get(text[at : at + length])
        if name is None:
            continue
        end = at + length
        if name in ALONE and text[end - 1] != "." and _IN_WORD.match(text, end):
            continue
        return name, end
    return None


def tokenise(text: str) -> str:
    """A line without its number, as BASIC keeps it."""
    out: list[str] = []
    at, size, start = 0, len(text), True
    while at < size:
        character = text[at]
        if character == " ":
            out.append(character)
            at += 1
        elif character == '"':
            end = _STRING.match(text, at).end()
            out.append(text[at:end])
            at, start = end, False
        elif character == "*" and start:
            out.append(text[at:])
            return "".join(out)
        elif "A" <= character <= "Z":
            at, start = _word(text, at, out)
            if at < 0:
                return "".join(out)
        else:
            start = character == ":"
            end = _plain(text, at, character)
            out.append(text[at:end])
            at = end
    return "".join(out)


def _plain(text: str, at: int, character: str) -> int:
    """Where a piece that begins with no capital letter ends."""
    if character == "&":
        return _HEX.match(text, at).end()
    if character.isdigit() or character == ".":
        return max(at + 1, _NUMBER.match(text, at).end())
    if "a" <= character <= "z" or character in "_`@":
        return _WORD.match(text, at).end()
    return at + 1


@lru_cache(maxsize=20000)
def _front(chunk: str) -> tuple[str | None, int]:
    """The keyword that a word with its `$`, `(` or point begins with, or None, and how long it is."""
    found = keyword_at(chunk, 0)
    return found if found else (None, _WORD.match(chunk).end())


def _word(text: str, at: int, out: list[str]) -> tuple[int, bool]:
    """Takes a word in capitals; where the rest of the line is copied, the place is -1."""
    name, size = _front(_CHUNK.match(text, at).group())
    end = at + size
    if name is None:
        out.append(text[at:end])
        return end, False
    out.append(T[name])
    if name in ("REM", "DATA"):
        out.append(text[end:])
        return -1, False
    if name in ("FN", "PROC"):
        following = _WORD.match(text, end)
        if following:
            out.append(following.group())
            end = following.end()
    return end, name in STARTS


_KEYWORD_RUN = re.compile("[\ue000-\ue3ff]")


def plain(text: str) -> str:
    """A piece of a line as LIST shows it."""
    return _KEYWORD_RUN.sub(lambda found: NAMES[found.group()], text)
