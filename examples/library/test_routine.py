"""Tests of a routine of ARM code, which divides: each calls it on a fresh machine, and looks at the registers that it
leaves. They need the package rosm and librosm.so where Python finds them, as in the folder that tools/library makes.

    python3 -m unittest test_routine
"""
import unittest

import rosm

# R0 by R1: the quotient in R2, what is left in R0
DIVIDE = """\
divide  MOV     R2,#0
loop    CMP     R0,R1
        MOVCC   PC,R14          ; less than R1 is left
        SUB     R0,R0,R1
        ADD     R2,R2,#1
        B       loop
"""


class Dividing(unittest.TestCase):
    def divide(self, number, by, **settings):
        """The machine after the routine, and how it ended."""
        machine = rosm.Machine(**settings)
        machine.asm(DIVIDE)
        return machine, machine.gosub("divide", R0=number, R1=by)

    def test_something_is_left(self):
        # 17 = 3 * 5 + 2
        machine, answer = self.divide(17, 5)
        self.assertEqual((machine.r[2], machine.r[0], machine.r[1]), (3, 2, 5))
        # 1, and 5 for each time round, and 2
        self.assertEqual(answer.text, "returned after 18 steps")

    def test_numbers_have_no_sign(self):
        # both have bit 31, and &FFFFFFFF = &80000000 + &7FFFFFFF
        machine, _ = self.divide(0xFFFFFFFF, 0x80000000)
        self.assertEqual((machine.r[2], machine.r[0]), (1, 0x7FFFFFFF))

    def test_division_by_zero_has_no_end(self):
        # the budget ends it, still in the loop, with nothing taken away
        machine, answer = self.divide(17, 0, budget=1000)
        self.assertEqual((answer.stop, machine.r[0]), ("Budget", 17))


if __name__ == "__main__":
    unittest.main()
