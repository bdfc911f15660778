"""The statements of the BBC BASIC Guide ("Keywords"), each by an example, worked by hand."""

from __future__ import annotations

import pytest

from basic_runs import errors, run, variables

# A program, and what its variables have behind it.
PROGRAMS: list[tuple[str, dict[str, object]]] = [
    # LET and assignments.
    ('LET a=5:b%=3.9:c$="x":LETd=a+1', {"a": 5, "b%": 3, "c$": "x", "d": 6}),
    ('a=1:a+=4:b$="x":b$+="y":c%=9:c%-=2', {"a": 5, "b$": "xy", "c%": 7}),
    ("a%=-7/2:A%=7.999", {"a%": -3, "A%": 7}),
    # IF on one line: the first ELSE of the line counts.
    ("a=1:IF a=1 THEN b=2 ELSE b=3", {"b": 2}),
    ("a=2:IF a=1 THEN b=2 ELSE b=3", {"b": 3}),
    ("a=1:IF a=1 b=2:c=3 ELSE b=4", {"b": 2, "c": 3}),
    ("a=0:b=0:IF a=1 THEN b=2:c=5\nd=6", {"b": 0, "d": 6}),
    ("a=1:IF a=1 THEN IF a=2 THEN b=1 ELSE b=2", {"b": 2}),
    ("a=0:IF a=1 THEN IF a=2 THEN b=1 ELSE b=2 ELSE b=3", {"b": 2}),
    ('b$="":IF 0 THEN PRINT " ELSE ":b$="no" ELSE b$="yes"', {"b$": "yes"}),
    ("10 IF 1 THEN 30\n20 a=1:END\n30 a=2", {"a": 2}),
    ("10 IF 0 THEN 20 ELSE 30\n20 a=1:END\n30 a=2", {"a": 2}),
    # IF over lines.
    ("x=1\nIF x=1 THEN\na=1\nELSE\na=2\nENDIF\nb=3", {"a": 1, "b": 3}),
    ("x=2\nIF x=1 THEN\na=1\nELSE a=2\nENDIF", {"a": 2}),
    ("x=2:a=0\nIF x=1 THEN\na=1\nENDIF\nb=1", {"a": 0, "b": 1}),
    ("x=0\nIF x THEN\nIF 1 THEN\na=1\nELSE\na=2\nENDIF\nELSE\na=3\nENDIF", {"a": 3}),
    ("x=0\nIF x THEN\nIF x THEN a=1 ELSE a=2\nELSE\na=3\nENDIF", {"a": 3}),
    # CASE.
    ("x=2\nCASE x OF\nWHEN 1:a=1\nWHEN 2,3:a=2\nOTHERWISE a=9\nENDCASE\nb=1", {"a": 2, "b": 1}),
    ('x$="c"\nCASE x$ OF\nWHEN "a","b"\na=1\nOTHERWISE\na=9\nENDCASE', {"a": 9}),
    ("a=0\nCASE TRUE OF\nWHEN 1=2:a=1\nWHEN 2=2:a=2\nWHEN 3=3:a=3\nENDCASE", {"a": 2}),
    ("a=7\nCASE 5 OF\nWHEN 1:a=1\nENDCASE", {"a": 7}),
    ("CASE 1 OF\nWHEN 2\nCASE 1 OF\nWHEN 1:a=1\nENDCASE\nWHEN 1\na=2\nENDCASE", {"a": 2}),
    # FOR: once at least; STEP; NEXT of several and of an outer variable.
    ("a=0:FOR i%=1 TO 5:a+=i%:NEXT", {"a": 15, "i%": 6}),
    ("a=0:FOR i%=5 TO 1:a+=1:NEXT", {"a": 1}),
    ("a=0:FOR i=1 TO 2 STEP .5:a+=i:NEXT i", {"a": 4.5}),
    ("a=0:FOR i%=10 TO 0 STEP -5:a+=1:NEXT", {"a": 3, "i%": -5}),
    ("a=0:FOR i%=1 TO 2:FOR j%=1 TO 3:a+=1:NEXT j%,i%", {"a": 6}),
    ("a=0:FOR i%=1 TO 2:FOR j%=1 TO 3:a+=1:NEXT i%", {"a": 2}),
    ("a=0\nFORi%=0TO3STEP3:a+=1:NEXTi%", {"a": 2}),
    # REPEAT and WHILE.
    ("a=0:REPEAT a+=1:UNTIL a=5", {"a": 5}),
    ("a=0:WHILE a<5:a+=2:ENDWHILE:b=1", {"a": 6, "b": 1}),
    ("a=0:WHILE FALSE\nWHILE TRUE\na=1\nENDWHILE\na=2:ENDWHILE:b=1", {"a": 0, "b": 1}),
    ("a=0:REPEAT FOR i%=1 TO 9:a+=1:UNTIL a=3", {"a": 3}),
    # PROC, FN, LOCAL and RETURN.
    ("PROCx(3)\nEND\nDEF PROCx(n):a=n*2:ENDPROC", {"a": 6}),
    ("a=FNsquare(5)+1\nEND\nDEF FNsquare(x)=x*x", {"a": 26}),
    ("x=1:PROCy\nEND\nDEF PROCy LOCAL x,b$:x=5:c=x\nENDPROC", {"x": 1, "c": 5}),
    ("n=9:a=FNf(4):END\nDEF FNf(n)\nIF n<2 THEN =1\n=n*FNf(n-1)", {"a": 24, "n": 9}),
    (
        "a=1:b=2:PROCswap(a,b)\nEND\nDEF PROCswap(RETURN x,RETURN y):LOCAL t:t=x:x=y:y=t:ENDPROC",
        {"a": 2, "b": 1},
    ),
    ("DIM v(3):v(2)=7:PROCz(v())\nb=v(1)\nEND\nDEF PROCz(q()):q(1)=q(2)*2:ENDPROC", {"b": 14}),
    ("PROCa:END\nDEF PROCa:LOCAL a():DIM a(2):a(1)=4:b=a(1):ENDPROC", {"b": 4}),
    ("a=0:FOR i%=1 TO 3:PROCp:NEXT:END\nDEF PROCp:FOR j%=1 TO 5:a+=1:ENDPROC", {"a": 3}),
    ('a$=FNjoin("x","y"):END\nDEFFNjoin(p$,q$)=q$+p$', {"a$": "yx"}),
    # GOTO, GOSUB, ON.
    ("10 a=1:GOTO 30\n20 a=2\n30 b=3", {"a": 1, "b": 3}),
    ("10 GOSUB 100:b=a\n20 END\n100 a=5:RETURN", {"b": 5}),
    ("10 x=2:ON x GOTO 20,30\n20 a=1:END\n30 a=2:END", {"a": 2}),
    ("10 x=5:ON x GOTO 20,30 ELSE a=9:END\n20 a=1\n30 a=2", {"a": 9}),
    ("10 ON 1 GOSUB 30:b=1\n20 END\n30 a=2:RETURN", {"a": 2}),
    ("ON 2 PROCa(1),PROCb(2):END\nDEF PROCa(n):r=n:ENDPROC\nDEF PROCb(n):r=n*10:ENDPROC", {"r": 20}),
    ("10 x=40:GOTO x\n20 a=1\n40 b=2", {"b": 2}),
    # DATA, READ, RESTORE.
    ('READ a,b$,c%\nDATA 1.5,"two, 2", 2*8', {"a": 1.5, "b$": "two, 2", "c%": 16}),
    ('READ a,b$\nDATA 1,"a,b"c\nREAD d:DATA 4,5\nDATA 6', {"b$": "a,b", "d": 6}),
    ("HIMEM=HIMEM-100:!HIMEM=5:a=!HIMEM", {"a": 5}),
    (
        "READ a:PROCx:READ b\nEND\nDEF PROCx:LOCAL DATA\nRESTORE:READ c:ENDPROC\nDATA 1,2",
        {"a": 1, "b": 2, "c": 1},
    ),
    (
        "READ a:PROCx:END\nDEF PROCx:LOCAL DATA\nRESTORE:READ b:RESTORE DATA\nREAD c:ENDPROC\nDATA 1,2",
        {"a": 1, "b": 1, "c": 2},
    ),
    ("READ a$,b$\nDATA  one ,two", {"a$": "one ", "b$": "two"}),
    ("10 READ a\n20 RESTORE 50:READ b\n30 RESTORE:READ c\n40 DATA 1\n50 DATA &FF", {"b": 255, "c": 1}),
    ("10 RESTORE +2:READ a\n20 DATA 1\n30 DATA 2", {"a": 2}),
    # DIM and arrays.
    ("DIM a%(2,3):a%(1,2)=5:b=a%(1,2)+a%(0,0)", {"b": 5}),
    ("DIM a(3),b(3):a()=2:b()=a()*3:c=b(3):a()=b()+a():d=a(0)", {"c": 6, "d": 8}),
    ("DIM a%(2):a%()=1,2,3:a%()+=1:b=SUM a%()", {"b": 9}),
    ("DIM a(1,1),b(1,1),c(1,1):a()=1,2,3,4:b()=5,6,7,8:c()=a().b():d=c(0,0):e=c(1,1)", {"d": 19, "e": 50}),
    ("DIM a(2):a()=-1:b=a(2)", {"b": -1}),
    ('DIM s$(2):s$(1)="x":s$(2)=s$(1)+"y":a$=s$(2)', {"a$": "xy"}),
    ("DIM p%(1),q% 20:p%(1)=q%:p%(1)!4=9:a=p%(1)!4", {"a": 9}),
    # SWAP, LEFT$( and others as statements.
    ("a=1:b=2:SWAP a,b", {"a": 2, "b": 1}),
    ("DIM a(1),b(2):b(2)=5:SWAP a(),b():c=a(2)", {"c": 5}),
    ('a$="Hello there":LEFT$(a$,2)="JUMBO":b$=a$', {"b$": "JUllo there"}),
    ('a$="Hello":LEFT$(a$)="Je"', {"a$": "Jello"}),
    ('a$="Hello":RIGHT$(a$,2)="xyz"', {"a$": "Helxy"}),
    ('a$="Hello":MID$(a$,2,3)="ipp"', {"a$": "Hippo"}),
    ('a$="Hello":MID$(a$,4)="pqrs"', {"a$": "Helpq"}),
    # Indirection.
    ("DIM b% 20:?b%=65:b%?1=66:b%?2=13:a$=$b%", {"a$": "AB"}),
    ('DIM b% 20:$b%="Hi":a=b%?2:!(b%+4)=-2:c=b%!4:b%!8+=3:d=b%!8', {"a": 13, "c": -2, "d": 3}),
    ("DIM b% 20:|b%=2.5:a=|b%", {"a": 2.5}),
    # Others.
    ("a%=5:B%=6:c=7:CLEAR:d=B%", {"B%": 6, "d": 6}),
    ("END\na=1", {}),
    ("STOP\na=1", {}),
    ("QUIT\na=1", {}),
    ("REM a=1:b=2\nc=3", {"c": 3}),
    ("a=0:DATA 1:a=2\nb=1", {"a": 0, "b": 1}),
    ("REPEAT:UNTIL TRUE:a=1::b=2", {"a": 1, "b": 2}),
    ("HIMEM=HIMEM-100:a=1", {"a": 1}),
    ("@%=&20209:a$=STR$(1.5):@%=&1020209:b$=STR$(1.5)", {"a$": "1.5", "b$": "1.50"}),
]


@pytest.mark.parametrize("program, wanted", PROGRAMS)
def test_program(program: str, wanted: dict[str, object]) -> None:
    found = variables(program)
    assert {name: found.get(name) for name in wanted} == wanted


def test_clock() -> None:
    """TIME goes on by statements, and a warning says so."""
    basic, messages = run("a=TIME:TIME=500:b=TIME\nFOR i%=1 TO 5000:NEXT:c=TIME")
    assert (basic.variables["a"], basic.variables["b"], basic.variables["c"]) == (
        0,
        500,
        505,
    )  # NEXT is 5000 statements
    assert [(message.severity, message.word) for message in messages.items] == [("warning", "TIME")]


def test_clear_and_end() -> None:
    assert "c" not in variables("c=7:CLEAR")
    assert "a" not in variables("END\na=1")
    assert variables("a=1:PROCx\nDEF PROCx:END") == variables("a=1")


PRINTED = [
    ('PRINT "Code is ";~&8F00', ["Code is 8F00"]),
    ("PRINT 1;2,3'4", ["12 3\n4"]),
    ('PRINT TAB(5)"x";SPC 3"y"', [" x y"]),
    ("PRINT", [""]),
    ('P."short"', ["short"]),
    ("PRINT -1.5", ["-1.5"]),
]


@pytest.mark.parametrize("program, wanted", PRINTED)
def test_print(program: str, wanted: list[str]) -> None:
    assert run(program)[0].printed == wanted


PASSED_OVER = [
    "MODE 12",
    "COLOUR 1",
    "COLOUR 1,2,3,4",
    "COLOR 3",
    "GCOL 0,1",
    "MOVE 1,2",
    "MOVE BY 1,2",
    "DRAW 3,4",
    "PLOT 69,1,1",
    "CIRCLE 1,2,3",
    "CIRCLE FILL 1,2,3",
    "ELLIPSE 1,2,3,4",
    "RECTANGLE 1,2,3",
    "VDU 23,0;0;0",
    "RECTANGLE FILL 1,2,3,4 TO 5,6",
    "FILL 1,2",
    "ORIGIN 0,0",
    "POINT 1,2",
    "TINT 1",
    "CLS",
    "CLG",
    "WIDTH 40",
    "OFF",
    "ON",
    "WAIT",
    "SOUND 1,-15,100,10",
    "ENVELOPE 1,2,3,4,5,6,7,8,9,10,11,12,13,14",
    "BEATS 4",
    "TEMPO 100",
    "VOICES 2",
    'VOICE 1,"x"',
    "STEREO 1,0",
    "LINE 1,2,3,4",
    "MOUSE ON 1",
    "MOUSE OFF",
    "TRACE ON",
    "ON ERROR OFF",
    "ON ERROR PRINT REPORT$:END",
    "VDU 5",
    "REPORT",
    "*FX 229",
    'TIME$="Sun"',
    "COLOUR 1 TINT 2",
    "SOUND ON",
    "POINT TO 1,2",
    "*KEY1 x",
]


@pytest.mark.parametrize("statement", PASSED_OVER)
def test_passed_over_with_a_note(statement: str) -> None:
    """Nothing is done, a note says so, and the program goes on."""
    basic, messages = run(statement + "\nz=1\n")
    assert basic.variables.get("z", 1 if statement == "ON" else None) == 1
    assert statement == "ON" or [message.severity for message in messages.items] == ["note"]


WRONG = [
    ("PRINT 1\nFOO", "2: FOO: no statement begins with this"),
    ("a=1 b=2", "1: b: this isn't understood behind the statement"),
    ("NEXT", "1: NEXT: no FOR was begun here"),
    ("UNTIL TRUE", "1: UNTIL: no REPEAT was begun here"),
    ("ENDWHILE", "1: ENDWHILE: no WHILE was begun here"),
    ("RETURN", "1: RETURN: no GOSUB was begun here"),
    ("ENDPROC", "1: ENDPROC: this is in no PROC that was called"),
    ("=5", "1: =: this is in no FN that was called"),
    ("LOCAL a", "1: LOCAL: this is in no PROC or FN"),
    ("GOTO 70", "1: 70: no line has this number"),
    ("PROCnone", "1: PROCnone: no DEF has this name"),
    ("a=b", "1: b: no variable has this name so far"),
    ("PROCx(1,2)\nEND\nDEF PROCx(a)", "1: PROCx: it has 1 parameters, and 2 are given"),
    ("DIM a(2):DIM a(2)", "1: a(): the array was made before, and DIM can't make it anew"),
    ("DIM a(2):a(3)=1", "1: a(: the subscript 3 is not one of 0 to 2"),
    ("DIM a(2):b=a(1,1)", "1: a(: the array has 1 dimensions, not 2"),
    ("a$=5", "1: : type mismatch: a string is wanted here, and this is a number"),
    ("a%=1E10", "1: : the number 1E10 is too big for 32 bits"),
    ("IF 0 THEN\na=1", "1: IF: its ENDIF is missing"),
    ("CASE 1 OF\na=1", "1: CASE: its ENDCASE is missing"),
    ("WHILE 0\na=1", "1: WHILE: its ENDWHILE is missing"),
    ("READ a", "1: READ: there is no more DATA"),
    ('READ a\nDATA "x"', "1: x: a number is wanted for READ, and DATA has a string"),
    ("FOR i=1 TO 5 STEP 0", "1: STEP: a loop with STEP 0 doesn't end"),
    ("DIM b% 4:FOR ?b%=1 TO 3", "1: ?&8F00: a variable for numbers is wanted here"),
    ("FOR i%=1 TO 2:FOR j%=1 TO 3:NEXT i%:NEXT", "1: NEXT: no FOR was begun here"),
    ("REPEAT:FOR i=1 TO 5:UNTIL TRUE:NEXT", "1: NEXT: no FOR was begun here"),
    ("FOR a$=1 TO 3", "1: a$: a variable for numbers is wanted here"),
    ("DIM p%(1):DIM p%(1) 20", "1: p%(): the array was made before"),
    ("FOR i=1 TO 2:NEXT j", "1: j: no FOR of this variable was begun here"),
    ('ERROR 5,"mine"', "1: ERROR: the program stops with its own error 5: mine"),
    ("SWAP a,b$", None),
    ("10 ON 5 GOTO 10", "1: ON: ON has no place for 5, and no ELSE"),
    ("DIM b% LOCAL 10", "1: DIM .. LOCAL: BASIC V has no blocks that are local to a PROC"),
    ("LOMEM=&9000", "1: LOMEM: the program's memory can't be moved here"),
    ("END=&9000", "1: END=: the program's memory can't be made larger here"),
    ("!&100=5", "1: : the program writes at &100"),
    ("a=?0", "1: : the program reads &0"),
    ("10 GOTO 10", "1: : the program doesn't end within 1000 statements"),
    ("PROCx\nEND\nDEF PROCx:PROCx:ENDPROC", "3: PROCx: more than 400 calls within one another"),
    ("a=1:RESTORE DATA", "1: RESTORE DATA: no LOCAL DATA comes before this"),
    ("THEN a=1", "1: THEN: no statement begins with this keyword"),
    ('LIBRARY "none"', "1: none: none of the files given"),
    ("*RUN x", "1: *RUN: another program would run"),
    ('OSCLI "LOAD x 8000"', "1: x: none of the files given"),
    ("IF a THEN\nENDIF", "1: a: no variable has this name so far"),
    ("LIST", "1: LIST: this is a command"),
    ("INPUT a", "1: INPUT: somebody at a machine would answer this"),
    ("LINE INPUT a$", "1: LINE INPUT: somebody at a machine"),
    ("MOUSE x,y,z", "1: MOUSE: a machine's mouse"),
    ("CALL &8000", "1: CALL: code is called"),
    ('CHAIN "x"', "1: CHAIN: another program"),
    ("OVERLAY a$()", "1: OVERLAY: another program"),
    ("RUN", "1: RUN: the program would begin anew"),
    ('SYS "Wimp_Poll" TO a%', "1: SYS Wimp_Poll: a machine would answer this call"),
]


@pytest.mark.parametrize("program, wanted", WRONG)
def test_wrong(program: str, wanted: str | None) -> None:
    from rosm.basic import Options

    found = errors(program, Options(steps=1000))
    assert len(found) == 1
    assert wanted is None or found[0].startswith(wanted)


def test_error_names_the_calls() -> None:
    _, messages = run("PROCa\nEND\nDEF PROCa\nb=FNb(1)\nENDPROC\nDEF FNb(x)\n=x+y\n")
    assert messages.items[0].text() == (
        "test:7: error: y: no variable has this name so far\n"
        "    =x+y\n"
        "    in FN b (test:6), called at test:4\n"
        "    in PROC a (test:3), called at test:1"
    )
