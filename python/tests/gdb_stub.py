"""A machine that stands still, for GDB alone: registers, memory, and what it answers to a line of `monitor`.

gdb_stub.py FILE: the file has them as JSON. Packets are those of GDB's manual, "Remote Protocol".
"""

from __future__ import annotations

import json
import sys

NAMES = [*(f"r{number}" for number in range(13)), "sp", "lr", "pc", "cpsr", "r13_usr", "r14_usr"]


def description() -> str:
    """The registers in their order, R0 to R12 and those behind them ("Target Descriptions", "ARM Features")."""
    kinds = {"sp": ' type="data_ptr"', "pc": ' type="code_ptr"'}
    lines = [f'<reg name="{name}" bitsize="32"{kinds.get(name, "")}/>' for name in NAMES]
    return ('<?xml version="1.0"?><!DOCTYPE target SYSTEM "gdb-target.dtd"><target version="1.0">'
            f'<architecture>armv2</architecture><feature name="org.gnu.gdb.arm.core">{"".join(lines[:17])}</feature>'
            f'<feature name="rosm.banks">{"".join(lines[17:])}</feature></target>')


def answers(packet: str, state: dict) -> list[str]:  # type: ignore[type-arg]
    """The packets that answer one."""
    words = [value.to_bytes(4, "little").hex() for value in (state["registers"].get(name, 0) for name in NAMES)]
    if packet.startswith("qSupported"):
        return ["PacketSize=4000;qXfer:features:read+"]
    if packet.startswith("qXfer:features:read:target.xml:"):
        start, count = (int(it, 16) for it in packet.rsplit(":", 1)[1].split(","))
        part = description()[start:start + count]
        return [("m" if start + count < len(description()) else "l") + part]
    if packet.startswith("qRcmd,"):
        return ["O" + state["lines"][bytes.fromhex(packet[6:]).decode()].encode().hex(), "OK"]
    if packet[:1] == "p":
        return [words[int(packet[1:], 16)]]
    if packet[:1] == "m":
        start, count = (int(it, 16) for it in packet[1:].split(","))
        known = [state["memory"].get(str(at)) for at in range(start, start + count)]
        front = known[:known.index(None)] if None in known else known
        return ["".join(f"{byte:02x}" for byte in front) or "E0e"]
    return [{"?": "T05", "g": "".join(words), "qAttached": "0"}.get(packet, "OK" if packet[:1] in ("H", "D") else "")]


def main() -> None:
    with open(sys.argv[1], encoding="ascii") as file:
        state = json.load(file)
    out, taken = sys.stdout.buffer, sys.stdin.buffer
    while byte := taken.read(1):
        if byte != b"$":
            continue
        packet = b""
        while (byte := taken.read(1)) not in (b"#", b""):
            packet += byte
        taken.read(2)
        told = b"+" + b"".join(b"$%s#%02x" % (it, sum(it) % 256) for it in map(str.encode, answers(packet.decode(), state)))
        out.write(told)
        out.flush()
        if packet in (b"k", b"D"):
            return


if __name__ == "__main__":
    main()
