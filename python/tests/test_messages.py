"""Messages: the place, the source's own word, the reason, the line, and the calls."""

from __future__ import annotations

from pathlib import Path

from rosm.objasm import Options, assemble_files

UNKNOWN = "this is no instruction, no directive, and no macro defined before this line"


def messages_of(folder: Path, **files: str) -> list[str]:
    """The messages of a source `main`, with other files beside it; paths without the folder."""
    for name, text in files.items():
        (folder / name).write_text(text)
    paths = [str(folder / "main")] + [str(folder / name) for name in files if name != "main"]
    program = assemble_files(Options(paths))
    return [message.text().replace(str(folder) + "/", "") for message in program.messages.items]


def test_macros_within_macros(tmp_path: Path) -> None:
    defs = ("        MACRO\n$l      Inner   $reg,$value\n$l      MOV     $reg, #$value\n        MEND\n"
            "        MACRO\n$l      Outer   $x\n        NOP\n$l      Inner   r0,$x\n        MEND\n")
    assert messages_of(tmp_path, main="        GET     defs\n\n        Outer   0x1234\n", defs=defs) == [
        "defs:3: error: no instruction has the number &1234: it is no byte rotated by an even number of "
        "bits\n"
        "    $l      MOV     $reg, #$value\n"
        "    in macro Inner (defs:2), called at defs:8\n"
        "    in macro Outer (defs:6), called at main:3"]


def test_files_within_files(tmp_path: Path) -> None:
    assert messages_of(tmp_path, main=" GET one\n", one="\n GET two\n", two=" MOV r0,#nothing\n") == [
        "two:1: error: nothing: nothing has this name\n    MOV r0,#nothing\n"
        f"    in file {tmp_path}/two, read by one:2\n    in file {tmp_path}/one, read by main:1".replace(
            f"{tmp_path}/", "")]


def test_all_errors_in_their_order(tmp_path: Path) -> None:
    found = messages_of(tmp_path, main=" MOV r0,#&101\n DCD x,1,y\n FOO\n B nowhere\n DCD 1\n")
    assert [text.split("\n")[0] for text in found] == [
        "main:1: error: no instruction has the number &101: it is no byte rotated by an even number of bits",
        "main:2: error: x: nothing has this name", "main:2: error: y: nothing has this name",
        f"main:3: error: FOO: {UNKNOWN}; a label begins in the first column",
        "main:4: error: nowhere: nothing has this name"]


def test_a_name_in_other_letters_is_hinted_at(tmp_path: Path) -> None:
    assert "nothing has this name; there is Start" in messages_of(tmp_path, main="Start B start\n")[0]


def test_the_word_is_the_sources_own(tmp_path: Path) -> None:
    found = messages_of(tmp_path, main=" DCD |a b| + |$c|\n SWI Wimp_Pol\n LDR r0,=Wimp\n")
    assert [text.split(": ")[2] for text in found] == ["|a b|", "Wimp_Pol", "Wimp"]


def test_a_forward_name_says_where_it_is_given(tmp_path: Path) -> None:
    assert "size: this is given a value only later, at main:2" in \
        messages_of(tmp_path, main=" % size\nsize EQU 4\n")[0]


def test_info_is_a_note(tmp_path: Path) -> None:
    assert messages_of(tmp_path, main='a DCD 1,2\n ! 0, "size " :CC: :STR:(. - a)\n') == [
        'main:2: note: !: size 00000008\n    ! 0, "size " :CC: :STR:(. - a)']


def test_each_message_once(tmp_path: Path) -> None:
    """A loop's line that is wrong is reported once."""
    source = " GBLA i\n WHILE i < 5\n MOV r0,#&101\ni SETA i+1\n WEND\n"
    assert len(messages_of(tmp_path, main=source)) == 1


def test_two_thousand_errors_are_cut(tmp_path: Path) -> None:
    found = messages_of(tmp_path, main=" MOV r0,#&101\n" * 2000)
    assert len(found) == 1001 and "there are more than 1000 messages" in found[-1]


def test_many_forward_names_are_no_errors(tmp_path: Path) -> None:
    """The first reading knows none of them; what it misses isn't counted."""
    assert messages_of(tmp_path, main=" B last\n" * 3000 + "last NOP\n") == []


def test_columns_are_hinted_at(tmp_path: Path) -> None:
    found = messages_of(tmp_path, main="MOV r0,#1\n loop\n FOO r0\n")
    assert [text.split("\n")[0] for text in found] == [
        "main:1: error: r0,#1: a space is wanted behind the operation; MOV, in the first column, is read "
        "as a label",
        f"main:2: error: loop: {UNKNOWN}; a label begins in the first column",
        f"main:3: error: FOO: {UNKNOWN}"]


def test_a_chain_of_names_that_come_later(tmp_path: Path) -> None:
    chain = "".join(f"a{number} EQU a{number + 1}+1\n" for number in range(30))
    assert messages_of(tmp_path, main=chain + "a30 EQU 1\n DCD a0\n") == []
