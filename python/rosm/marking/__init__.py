"""Marks: what a class has handed in is assembled, run on cases and reported. docs/MARKING.md has how.

What is handed in is data. It is assembled alone; the script of a case has its bytes as hexadecimal
digits, so that no line of it can be a line of that script. What is so is compared here, not by the guest.
"""
