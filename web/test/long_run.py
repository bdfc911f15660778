"""Records of a loop of very many steps, made here by what its three instructions do, for tests of size and speed."""
import json

START = {
    "start": 1, "name": "loop", "sizes": {"pages": 256, "app": 64, "rma": 16}, "budget": 1000000,
    "regs": {"R0": 0, "R1": 0, "R13_svc": 0x1C02000}, "flags": {flag: 0 for flag in "NZCVIF"}, "mode": "USR", "pc": 0x8000,
    "mapped": [[0x8000, 0x40000]], "mem": [], "heaps": [], "areas": [], "pool": 100, "flex": None, "modules": [],
}
BLOCK = ["again   ADD     R0,R0,#1", "        STR     R0,[R1,#4]!", "        B       again", "END"]


def spelled(record: dict[str, object]) -> str:
    return json.dumps(record, separators=(",", ":")).replace("<", "\\u003c") + "\n"


def records(steps: int) -> bytes:
    """A loop that counts in R0, and stores each count at the next word of 4,096."""
    parts = [spelled(START), spelled({"line": 1, "text": "ASM loop &8000", "block": BLOCK})]
    image = {"name": "loop", "origin": 0x8000, "length": 12, "labels": {"again": 0}, "lines": [[2, 0, 4], [3, 4, 4], [4, 8, 4]]}
    parts.append(spelled({"answer": 1, "text": "asm loop: 12 bytes", "image": image}))
    parts += [spelled({"line": 5, "text": "BOOT loop"}), spelled({"answer": 5, "text": "boot loop", "places": [["loop", 0x8000]]})]
    parts += [spelled({"line": 6, "text": "SET R1 &9000"}), spelled({"answer": 6, "regs": {"R1": 0x9000}})]
    parts.append(spelled({"line": 7, "text": "RUN"}))
    words: dict[int, int] = {}
    count, at = 0, 0x9000
    for step in range(1, steps + 1):
        if step % 3 == 1:
            count += 1
            done = {"pc": 0x8000, "word": 0xE2800001, "asm": "ADD R0,R0,#&1", "regs": {"R0": count}}
        elif step % 3 == 2:
            at = 0x9000 + (at + 4 - 0x9000) % 16384
            done = {"pc": 0x8004, "word": 0xE5A10004, "asm": "STR R0,[R1,#&4]!", "regs": {"R1": at}, "mem": [[at, words.get(at, 0), count]]}
            words[at] = count
        else:
            done = {"pc": 0x8008, "word": 0xEAFFFFFC, "asm": "B &8000", "next": 0x8000}
        parts.append(spelled({"step": step, **done}))
    parts.append(spelled({"answer": 7, "steps": steps, "text": "stop Budget", "stop": {"reason": "Budget"}}))
    parts.append(spelled({"end": 1, "passed": 0, "failed": 0, "refused": 0, "status": 3}))
    return "".join(parts).encode("ascii")
