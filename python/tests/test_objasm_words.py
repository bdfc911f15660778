"""Every keyword of the manual's reference: done, or refused by name. None passes without a word."""

from __future__ import annotations

from pathlib import Path

import pytest

from rosm import arm2
from rosm.objasm import Options, assemble_files
from rosm.program import Program
from rosm.swis import near_swi

# Directives (ObjAsm manual, "Directives" and "Macros", and AAsm's) with a line in which each is right.
DONE = {
    "ALIGN": " ALIGN 8", "AREA": " AREA a, CODE, READONLY", "ASSERT": " ASSERT 1 = 1",
    "CN": "c0 CN 0", "CP": "p1 CP 1", "FN": "f1 FN 1", "DCB": " DCB 1", "=": " = 1", "DCD": " DCD 1",
    "&": " & 1", "DCDU": " DCDU 1", "DCI": " DCI 1", "DCW": " DCW 1", "DCWU": " DCWU 1",
    "IF": " IF 1 = 1\n ELSE\n ENDIF", "[": " [ 1 = 1\n |\n ]", "ELIF": " IF 1 = 2\n ELIF 1 = 1\n ENDIF",
    "END": " END", "ENTRY": " ENTRY", "EQU": "x EQU 1", "*": "x * 1", "EXPORT": " EXPORT x",
    "EXTERN": " EXTERN x", "IMPORT": " IMPORT x", "GLOBAL": " GLOBAL x", "STRONG": " STRONG x",
    "FIELD": "x FIELD 4", "#": "x # 4", "GBLA": " GBLA x", "GBLL": " GBLL x", "GBLS": " GBLS x",
    "INFO": ' INFO 0, "x"', "!": ' ! 0, "x"', "KEEP": " KEEP", "LTORG": " LTORG", "LNK": " LNK other",
    "GET": " GET other", "INCLUDE": " INCLUDE other", "INCBIN": " INCBIN other", "BIN": " BIN other",
    "MACRO": " MACRO\n M\n MEXIT\n MEND\n M", "MAP": " MAP 0", "^": " ^ 0", "NOFP": " NOFP",
    "OPT": " OPT 1", "ORG": " ORG &8000", "RLIST": "x RLIST {r0}", "RN": "x RN 1", "ROUT": "x ROUT",
    "SETA": " GBLA x\nx SETA 1", "SETL": " GBLL x\nx SETL {TRUE}", "SETS": ' GBLS x\nx SETS ""',
    "LCLA": " MACRO\n M\n LCLA x\n LCLL y\n LCLS z\n MEND\n M", "SPACE": " SPACE 4", "%": " % 4",
    "SUBT": " SUBT x", "TTL": " TTL x", "LEADR": " LEADR &8000", "CODE32": " CODE32", "ARM": " ARM",
    "WHILE": " WHILE 1 = 2\n WEND"}

# Those that make no bytes, have no effect on any, and are noted.
NOTED = ("TTL", "SUBT", "OPT", "LEADR", "NOFP", "CODE32", "ARM", "KEEP", "STRONG", "INFO", "!", "EXPORT",
         "GLOBAL")

REFUSED = ("DCFS", "DCFD", "DCFSU", "DCFDU", "DCQ", "DCQU", "CODE16", "THUMB", "PROC", "ENDP", "FUNCTION",
           "ENDFUNC", "FRAME", "EXPORTAS", "REQUIRE", "PRESERVE8", "RELOC", "ATTR", "COMMON", "DN", "SN",
           "VN", "FILL", "WEAK", "DATA")

# Instructions of later processors, of coprocessors and of floating point, with a condition too.
INSTRUCTIONS = ("MRS", "MSR", "SWP", "SWPB", "SWPEQB", "LDRH", "LDREQH", "LDRSB", "LDRNESH", "STRH", "BX",
                "BLX", "UMULL", "SMLAL", "CLZ", "CDP", "LDC", "LDCL", "LDCEQL", "STC", "MCR", "MRC", "ADFS",
                "MUFEQD", "SUFE", "LDFD", "STFE", "LFM", "SFMEA", "FLTS", "FIX", "FIXEQ", "CMF", "CMFE",
                "CNFE", "WFS", "RFS", "MVFEQD", "SQTS", "POLD", "PUSH", "POP", "SVC")

UNARY = {":NOT:": ":NOT: 1", ":LNOT:": ":LEN:(:STR:(:LNOT:{TRUE}))", ":LEN:": ':LEN:"a"', ":CHR:": ":CHR:65",
         ":STR:": ":LEN::STR:1", ":DEF:": ":LEN::STR:(:DEF:x)", ":BASE:": ":BASE:y", ":INDEX:": ":INDEX:y",
         "?": "?y", "-": "-1", "+": "+1", "~": "~1", ":UPPERCASE:": ':UPPERCASE:"a"',
         ":LOWERCASE:": ':LOWERCASE:"A"'}
BINARY = (":MOD:", "*", "/", "+", "-", ":AND:", ":OR:", ":EOR:", ":SHL:", ":SHR:", ":ROL:", ":ROR:", "<<",
          ">>", "&", "|", "^", "%")
COMPARING = ("=", "==", "<>", "/=", "!=", "<", ">", "<=", ">=", "=<", "=>")
OF_TRUTHS = (":LAND:", ":LOR:", ":LEOR:", "&&", "||")
OF_TEXTS = (":CC:", )
OF_TEXT_AND_NUMBER = (":LEFT:", ":RIGHT:")
BUILTIN = ("{PC}", "{VAR}", "{TRUE}", "{FALSE}", "{OPT}", "{CONFIG}", "{ENDIAN}", "{CODESIZE}",
           "{PCSTOREOFFSET}", "{CPU}", "{ARCHITECTURE}", ".", "@")


def program_of(text: str, folder: Path) -> Program:
    source = folder / "s"
    source.write_text(text)
    other = folder / "other"
    other.write_text(" DCD 7\n")
    return assemble_files(Options([str(source), str(other)]))


def errors_of(text: str, folder: Path) -> list[str]:
    return [message.text() for message in program_of(text, folder).messages.errors()]


@pytest.mark.parametrize("name", DONE)
def test_directive_is_done(name: str, tmp_path: Path) -> None:
    assert errors_of(DONE[name] + "\n DCD 1\n" if name not in ("END", "LNK") else
                     " DCD 1\n" + DONE[name], tmp_path) == []


@pytest.mark.parametrize("name", NOTED)
def test_what_makes_no_bytes_is_noted(name: str, tmp_path: Path) -> None:
    line = " STRONG" if name == "STRONG" else DONE[name]
    program = program_of(line + "\n DCD 1\n", tmp_path)
    assert [message.word for message in program.messages.items if message.severity == "note"] == [name]
    assert program.data == bytes([1, 0, 0, 0])


@pytest.mark.parametrize("name", REFUSED + INSTRUCTIONS)
def test_word_is_refused_by_name(name: str, tmp_path: Path) -> None:
    program = program_of(f" {name} r0,r1\n", tmp_path)
    words = [message.word for message in program.messages.errors() if message.position.line]
    assert words == [name]
    assert program.data == b""
    assert "no directive" not in program.messages.errors()[0].reason


def test_no_directive_is_unknown_to_this_test() -> None:
    from rosm.objasm.directives import DIRECTIVES
    more = {"|", "ELSE", "]", "ENDIF", "FI", "MEND", "MEXIT", "WEND", "LCLL", "LCLS"}
    assert {name for name in DIRECTIVES if name == name.upper()} == set(DONE) | more


@pytest.mark.parametrize("operator", UNARY)
def test_unary_operator(operator: str, tmp_path: Path) -> None:
    assert errors_of(f" ^ 4,r1\ny # 4\n DCD {UNARY[operator]}\n", tmp_path) == []


@pytest.mark.parametrize("operator", BINARY)
def test_operator_of_numbers(operator: str, tmp_path: Path) -> None:
    assert errors_of(f" DCD 7 {operator} 3\n DCD (7){operator}(3)\n", tmp_path) == []


@pytest.mark.parametrize("operator", COMPARING)
def test_comparison(operator: str, tmp_path: Path) -> None:
    assert errors_of(f' [ 7 {operator} 3\n ]\n [ "a" {operator} "b"\n ]\n DCD 1\n', tmp_path) == []


@pytest.mark.parametrize("operator", OF_TRUTHS)
def test_operator_of_truths(operator: str, tmp_path: Path) -> None:
    assert errors_of(f" [ {{TRUE}} {operator} {{FALSE}}\n ]\n DCD 1\n", tmp_path) == []


@pytest.mark.parametrize("operator", OF_TEXTS + OF_TEXT_AND_NUMBER)
def test_operator_of_texts(operator: str, tmp_path: Path) -> None:
    right = '"b"' if operator in OF_TEXTS else "1"
    assert errors_of(f' = "a" {operator} {right}\n', tmp_path) == []


def test_no_operator_is_unknown_to_this_test() -> None:
    from rosm.objasm.values import BINARY as KNOWN
    assert set(KNOWN) == set(BINARY + COMPARING + OF_TRUTHS + OF_TEXTS + OF_TEXT_AND_NUMBER)


@pytest.mark.parametrize("name", BUILTIN)
def test_builtin(name: str, tmp_path: Path) -> None:
    assert errors_of(f" [ :LEN::STR:(:DEF:x) = 1\n DCD 1\n ]\n ASSERT {name} = {name}\n", tmp_path) == []


def test_unknown_builtin(tmp_path: Path) -> None:
    assert "{FPU}: nothing is known" in errors_of(" DCD {FPU}\n", tmp_path)[0]


def test_each_spelling_means_one_thing() -> None:
    """Every spelling of the table is taken with operands of its form."""
    operands = {arm2.Form.DATA: "r0,r1,r2", arm2.Form.MOVE: "r0,r1", arm2.Form.TEST: "r0,r1",
                arm2.Form.MULTIPLY: "r0,r1,r2", arm2.Form.MULTIPLY_ADD: "r0,r1,r2,r3",
                arm2.Form.TRANSFER: "r0,[r1],#4", arm2.Form.BLOCK: "r0,{r1}", arm2.Form.BRANCH: ".",
                arm2.Form.SWI: "0", arm2.Form.ADR: "r0,.", arm2.Form.ADRL: "r0,.", arm2.Form.NOP: ""}
    lines = [f" {name} {operands[operation.form]}" for name, operation in arm2.OBJASM.items()]
    import tempfile
    with tempfile.TemporaryDirectory() as folder:
        assert errors_of("\n".join(lines) + "\n", Path(folder)) == []


@pytest.mark.parametrize("name", ("REL", "PIC", "A32bit", "INTERWORK", "REENTRANT"))
def test_attribute_of_an_area_is_noted(name: str, tmp_path: Path) -> None:
    program = program_of(f" AREA a, CODE, READONLY, {name}\n DCD 1\n", tmp_path)
    assert [message.word for message in program.messages.items] == [name]


@pytest.mark.parametrize("name, hint", [("os_byte", "; there is OS_Byte, and capitals count"), ("xos_byte", "; there is XOS_Byte, and capitals count"),
                                        ("OS_Writec", "; there is OS_WriteC, and capitals count"), ("OS_Claim_", "; there is OS_Claim"),
                                        ("NoSuch_Thing", "")])
def test_a_swi_that_is_nearly_known(name: str, hint: str) -> None:
    assert near_swi(name) == hint
