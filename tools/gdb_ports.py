"""The real GDB over a port, as editors and other clients ask for one: socat listens there, and runs `rosm_gdb` for
who connects. tools/try_gdb calls it.

Sessions of tools/gdb_sessions must print over a port what they print over a pipe. Each connection must have a machine
of its own, which ends with it, and GDB's machine interface, by which editors speak to it, must stop where it should."""
from __future__ import annotations

import os
import select
import signal
import socket
import subprocess
import time
from collections.abc import Iterator, Sequence
from contextlib import contextmanager
from dataclasses import dataclass

from gdb_under_test import GDB, SETTINGS
from gdb_under_test import cleared, compiled, is_same, kept_file, lacking, needed, prepared, said, say_left_out

# the sessions that are held over a port too, and the level of those in C
OVER_PORTS = (
    ("again", "O0"),
    ("back-watch", "O0"),
    ("halted", None),
    ("libraries", None),
    ("lines", None),
    ("list", "O0"),
    ("loaded", "O0"),
    ("monitor", None),
    ("script-again", None),
)
# four steps up to the call that ends the program
SCRIPT = """ASM port &8000
        MOV     R0,#1
        MOV     R1,#2
        MOV     R2,#3
        MOV     R3,#4
        SWI     OS_Exit
END
BOOT port
"""
ENDLESS = """ASM endless &8000
loop    ADD     R0,R0,#1
        B       loop
END
BOOT endless
"""
# what GDB is asked on a fresh machine of SCRIPT, and its answers
FRESH = (
    ("print/x $pc", "= 0x8000\n"),
    ("print $r0", "= 0\n"),
    ("print $r5", "= 0\n"),
    ("x/1dw 0x9000", "0x9000:\t0\n"),
)
# the machine interface: commands of an editor, and what the records that come must have, by examples/c/list.c: the
# fourth of its values is 300, `insert` begins its work at line 33, and line 61 calls it
EDITOR = (
    ("-break-insert -c value==300 insert", ('number="1"', 'func="insert"', 'line="33"')),
    ("-exec-continue", ('reason="breakpoint-hit"', 'func="insert"', '{name="value",value="300"}', 'line="33"')),
    ("-stack-list-frames", ('level="0"', 'func="insert"', 'level="1"', 'func="main"', 'line="61"')),
    ("-data-evaluate-expression value+1", ('value="301"',)),
    ("-exec-finish", ('reason="function-finished"', 'func="main"')),
    ("-data-evaluate-expression list->next->value", ('value="42"',)),
    ("-break-delete 1", ("^done",)),
    ("-exec-continue", ('reason="exited-normally"',)),
    # the end is an end: no thread begins anew, until the program is run again, whose first value is 42
    ("-thread-info", ("^done,threads=[]",)),
    ("-break-insert insert", ('number="2"',)),
    ("-exec-run", ('reason="breakpoint-hit"', 'func="insert"', '{name="value",value="42"}')),
    ("-exec-step-instruction --reverse", ('reason="end-stepping-range"', 'func="insert"')),
)


@dataclass(frozen=True)
class Port:
    """A port at which socat listens."""

    number: int
    socat: subprocess.Popen[bytes]

    @property
    def address(self) -> str:
        return f"localhost:{self.number}"


def free_port() -> int:
    with socket.socket() as asked:
        asked.bind(("127.0.0.1", 0))
        return int(asked.getsockname()[1])


@contextmanager
def listening(room: str, command: str, more: str = "", number: int = 0) -> Iterator[Port]:
    """Has socat listen, as docs/GDB.md has it, and run a command for who connects. What the command writes to standard
    error comes to the file `errors`, what socat has to say to the file `socat`."""
    log, number = f"{room}/socat", number or free_port()
    with open(log, "wb"), open(f"{room}/errors", "wb") as errors:
        words = ["socat", "-d", "-d", "-lf", log, f"TCP-LISTEN:{number},reuseaddr{more}", f"EXEC:'{command}'"]
        socat = subprocess.Popen(words, cwd=room, stdin=subprocess.DEVNULL, stderr=errors)
    try:
        end = time.monotonic() + 30
        while "listening on" not in read(log) and socat.poll() is None and time.monotonic() < end:
            time.sleep(0.02)
        yield Port(number, socat)
    finally:
        socat.kill()
        socat.wait()


def read(path: str) -> str:
    with open(path, encoding="utf-8", errors="replace") as file:
        return file.read()


class Client:
    """A GDB that takes lines one by one, and stays while others come and go."""

    def __init__(self, room: str, *words: str, command: Sequence[str] = ()) -> None:
        command = command or [GDB, "-q", *SETTINGS, *words]
        self.process = subprocess.Popen(
            command, cwd=room, stdin=subprocess.PIPE, stdout=subprocess.PIPE, stderr=subprocess.STDOUT, bufsize=0
        )

    def send(self, line: str) -> None:
        assert self.process.stdin
        self.process.stdin.write(line.encode() + b"\n")

    def until(self, *wanted: bytes, seconds: float = 60) -> str:
        """What GDB prints until all of some texts stand there, or in the seconds that it may take."""
        assert self.process.stdout
        text, end = b"", time.monotonic() + seconds
        while not all(it in text for it in wanted) and time.monotonic() < end:
            if select.select([self.process.stdout], [], [], 1)[0]:
                piece = os.read(self.process.stdout.fileno(), 4096)
                if not piece:
                    break
                text += piece
        return text.decode(errors="replace")

    def ask(self, line: str) -> str:
        """What GDB prints to a line."""
        self.send(line)
        self.send("echo <end>\\n")
        return self.until(b"<end>\n").replace("<end>\n", "").replace("(gdb) ", "")

    def end(self) -> None:
        """Ends GDB without a word to the machine."""
        self.process.kill()
        self.process.wait()
        for pipe in (self.process.stdin, self.process.stdout):
            if pipe:
                pipe.close()


def answers(client: Client, asked: tuple[tuple[str, str], ...], about: str) -> bool:
    """Whether GDB's answers have what they must have."""
    good = True
    for line, wanted in asked:
        text = client.ask(line)
        if wanted not in text:
            print(f"try_gdb: {about}: {line} printed {text!r}, without {wanted!r}")
            good = False
    return good


def try_session(room: str, name: str, level: str | None, program: str) -> bool:
    """Whether GDB prints over a port what it prints over a pipe, where it also shows what the program writes to
    standard error. Afterwards socat has ended."""
    session = prepared(room, name, level, program)
    with listening(room, session.command) as port:
        text = said(room, f"{session.kind} {port.address}", str(kept_file(name, None).with_suffix(".gdb")), session.elf)
        ended = has_ended(port)
    cleared(room, name)
    return is_same(f"{name} over a port", read(f"{room}/errors") + text, read(str(kept_file(name, level)))) and ended


def has_ended(port: Port) -> bool:
    """Whether socat ends with the session, with whatever status."""
    try:
        port.socat.wait(10)
    except subprocess.TimeoutExpired:
        print("try_gdb: socat is still there after its session")
        return False
    return True


def logged(room: str, wanted: list[str]) -> bool:
    """Whether the machines have begun and ended as they should, each with its exit status, or do so in a while."""
    end = time.monotonic() + 10
    while (log := read(f"{room}/machines").splitlines()) != wanted and time.monotonic() < end:
        time.sleep(0.05)
    if log != wanted:
        print(f"try_gdb: machines {log} in place of {wanted}")
    return log == wanted


def write_logger(room: str, program: str, text: str = SCRIPT) -> str:
    """A command that runs the program on a script, and writes to a file when it begins and ends."""
    with open(f"{room}/port.script", "w", encoding="utf-8") as script:
        script.write(text)
    with open(f"{room}/logged", "w", encoding="utf-8") as command:
        command.write(f"#!/bin/sh\necho begun >>machines\n{program} --script port.script\necho ended $? >>machines\n")
    os.chmod(f"{room}/logged", 0o755)
    with open(f"{room}/machines", "w", encoding="utf-8"):
        return "./logged"


def try_machines(room: str, program: str) -> bool:
    """Each connection has a machine of its own, also beside another; it ends where its client leaves or is killed, and
    who comes then finds a fresh one. The status is that of the last stop: 3 after a step, 0 after the exit."""
    with listening(room, write_logger(room, program), ",fork") as port:
        first, second, third = (Client(room) for _ in range(3))
        try:
            good = is_each_apart(room, port, first, second)
            good &= logged(room, ["begun", "begun", "ended 0"])
            # the client leaves, and comes again
            good &= answers(first, (("disconnect", "Ending remote debugging."),), "a client that leaves")
            good &= logged(room, ["begun", "begun", "ended 0", "ended 3"])
            connect = (f"target remote {port.address}", "0x00008000 in ?? ()")
            good &= answers(first, (connect, *FRESH), "a client that comes again")
            # the break that GDB still has strikes on the new machine
            good &= answers(first, (("continue", "Breakpoint 1, 0x0000800c in ?? ()"),), "a break on another machine")
            first.end()
            good &= logged(room, ["begun", "begun", "ended 0", "ended 3", "begun", "ended 3"])
            fresh = ((f"target extended-remote {port.address}", "0x00008000 in ?? ()"), *FRESH)
            good &= answers(third, fresh, "after a client that was killed")
        finally:
            for client in (first, second, third):
                client.end()
    return good


def is_each_apart(room: str, port: Port, first: Client, second: Client) -> bool:
    """Whether a client that changes its machine and one that runs to the end don't meet."""
    connect = (f"target remote {port.address}", "0x00008000 in ?? ()")
    stop = (("break *0x800c", "Breakpoint 1"), ("continue", "Breakpoint 1, 0x0000800c"))
    changed = (
        ("print $r0", "= 1\n"),
        ("print $r5", "= 77\n"),
        ("x/1dw 0x9000", "0x9000:\t5\n"),
        ("print/x $pc", "= 0x800c\n"),
    )
    sets = (("print $r5 = 77", "= 77\n"), ("print *(int *) 0x9000 = 5", "= 5\n"))
    good = answers(first, (connect, *stop, *sets, *changed), "the first client")
    good &= answers(second, (connect, *FRESH, ("continue", "exited normally")), "a client beside it")
    return good & answers(first, changed, "the first client after the other's end")


def try_same_port(room: str, program: str) -> bool:
    """The port can be listened at again right after a session, as `reuseaddr` has it."""
    number = free_port()
    for _ in range(2):
        with listening(room, write_logger(room, program), number=number) as port:
            client = Client(room)
            connect = (f"target remote {port.address}", "0x00008000 in ?? ()")
            good = answers(client, (connect, *FRESH, ("continue", "exited normally")), "the same port again")
            client.end()
            if not good or not has_ended(port):
                return False
    return True


def try_leaving(room: str, program: str) -> bool:
    """A machine ends where its client goes away without a word: while the program runs or is stepped, and in the midst
    of a packet. Its last stop was a step, or none, so its status is 3."""
    with listening(room, write_logger(room, program, ENDLESS), ",fork") as port:
        ended: list[str] = []
        for line in ("continue", "while 1\nstepi\nend"):
            client = Client(room, "-ex", f"target remote {port.address}")
            client.until(b"0x00008000 in ?? ()")
            client.send(line)
            time.sleep(1)
            client.end()
            ended += ["begun", "ended 3"]
            if not logged(room, ended):
                return False
        with socket.create_connection(("127.0.0.1", port.number)) as silent:
            silent.sendall(b"$vCont;c")
            time.sleep(0.2)
        return logged(room, [*ended, "begun", "ended 3"])


def try_interrupt(room: str, program: str) -> bool:
    """An endless loop, stopped by SIGINT to a GDB that reads no terminal, as an editor's button does."""
    with listening(room, write_logger(room, program, ENDLESS)) as port:
        client = Client(room, "-ex", f"target remote {port.address}")
        client.send("continue")
        client.until(b"Continuing.")
        time.sleep(1)
        client.process.send_signal(signal.SIGINT)
        text = client.until(b"SIGINT")
        within = (("print $pc < 0x8008", "= 1\n"), ("print $r0 > 1000", "= 1\n"))
        good = "Program received signal SIGINT" in text and answers(client, within, "SIGINT")
        client.end()
    if not good:
        print(f"try_gdb: SIGINT didn't stop a loop over a port; GDB said\n{text}")
    return good


def try_button(room: str, program: str) -> bool:
    """The same loop, stopped by a command of the machine interface."""
    with listening(room, write_logger(room, program, ENDLESS)) as port:
        client = Client(room, "--interpreter=mi3", "-ex", "set mi-async on", "-ex", f"target remote {port.address}")
        client.send("-exec-continue")
        client.until(b"*running")
        time.sleep(1)
        client.send("-exec-interrupt")
        text = client.until(b"*stopped", b'signal-name="SIGINT"', seconds=30)
        client.end()
    good = 'signal-name="SIGINT"' in text
    if not good:
        print(f"try_gdb: -exec-interrupt didn't stop a loop over a port; GDB said\n{text}")
    return good


def try_editor(room: str, program: str) -> bool:
    """The machine interface over a port, as an editor speaks it."""
    made = compiled(room, "list", "O0")
    with listening(room, f"{program} {made}.bin") as port:
        client = Client(room, "--interpreter=mi3", f"{made}.elf")
        good = True
        for line, wanted in ((f"-target-select extended-remote {port.address}", ('func="_start"',)), *EDITOR):
            client.send(line)
            text = client.until(*(it.encode() for it in wanted), seconds=30)
            if not all(it in text for it in wanted):
                print(f"try_gdb: {line} printed {text!r}, without all of {wanted}")
                good = False
        client.end()
        return good and has_ended(port)


def try_ports(room: str, program: str) -> tuple[int, int]:
    """How many sessions are as they should be, and of how many; those that lack a program count nothing."""
    if lacking("socat"):
        say_left_out("sessions over a port", "socat")
        return 0, 0
    held = [(name, level) for name, level in OVER_PORTS if not lacking(*needed(name))]
    results = [try_session(room, name, level, program) for name, level in held]
    results += [it(room, program) for it in (try_machines, try_same_port, try_leaving, try_interrupt, try_button)]
    if len(held) < len(OVER_PORTS):
        others = {word for name, _ in OVER_PORTS for word in needed(name)}
        say_left_out(f"{len(OVER_PORTS) - len(held)} of the sessions over a port", *others)
    if lacking("arm-none-eabi-gcc"):
        say_left_out("the machine interface over a port", "arm-none-eabi-gcc")
    else:
        results.append(try_editor(room, program))
    return sum(results), len(results)
