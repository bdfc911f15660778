"""How long a large source takes."""

from __future__ import annotations

import time
from pathlib import Path

from rosm.objasm import Options, assemble_files
from rosm.objasm.tokens import split_line, tokens_of


def large_source(count: int) -> str:
    """Lines of all usual kinds, most of them different ones."""
    lines = ["        AREA    |x|,CODE,READONLY"]
    for number in range(0, count, 10):
        shift = f"LSL #{number % 31 + 1}"
        lines += [f"lab{number}  MOV     r{number % 13},#{number % 256}",
                  f"        LDR     r0,[r1,#{number % 4000}]",
                  f"        ADDS    r{number % 8},r{number % 5},r{number % 7},{shift} ; {number}",
                  f"        B       lab{number}", f"        LDR     r2,=&{0x12345678 + number % 50:X}",
                  f"        STMFD   sp!,{{r0-r{number % 10 + 1},lr}}",
                  f"        DCD     {number},lab{number},&{number:X}",
                  f"        CMP     r{number % 9},#{number % 200}:SHL:2",
                  f"        DCB     \"text {number:8}\"",
                  "        LTORG" if number % 200 == 0 else f"        ADR     r1,lab{number}"]
    return "\n".join(lines) + "\n"


def seconds(place: Path, count: int) -> float:
    """The processor's time for so many lines; the least of three, since other programs may slow one of them."""
    place.write_text(large_source(count))
    used = []
    for _ in range(3):
        split_line.cache_clear()
        tokens_of.cache_clear()
        start = time.process_time()
        program = assemble_files(Options([str(place)]))
        used.append(time.process_time() - start)
        assert program.messages.errors() == [] and len(program.data) > 4 * count
    return min(used)


def test_ten_thousand_lines(tmp_path: Path) -> None:
    """About two seconds where nothing else runs. Ten times the lines may take fifty times the time on a busy machine, not a hundred times."""
    long = seconds(tmp_path / "s", 10_000)
    assert long < 2 or long < 50 * seconds(tmp_path / "s", 1_000)
