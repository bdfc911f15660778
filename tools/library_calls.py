"""The calls of the library from Python, each with what it must come to: `tools/library` runs these tests."""
import ctypes
import unittest

import rosm
from rosm.native import library_path, loaded

SIZES = (256, 64, 16, 1000)
# SWI OS_Exit
IMAGE = bytes.fromhex("110000EF")


class Calls(unittest.TestCase):
    def test_the_status_is_that_of_rosm(self) -> None:
        self.assertEqual(rosm.run("STEP 0\n"), (3, "at &8000\n"))

    def test_no_more_is_filled_than_the_room(self) -> None:
        out, written = ctypes.create_string_buffer(b"......", 6), ctypes.c_size_t()
        status = loaded(library_path()).rosm_run(*SIZES, b"STEP 0\n", 7, out, 4, ctypes.byref(written))
        self.assertEqual((status, written.value, out.raw), (3, 9, b"at &.."))

    def test_sizes_that_no_machine_has(self) -> None:
        with self.assertRaises(rosm.ScriptError):
            rosm.run("STEP 0\n", pages=1)

    def test_an_image_is_booted(self) -> None:
        self.assertEqual(rosm.run("BOOT quit\nRUN\n", image=("quit", IMAGE)), (0, "boot quit\nstop Exit\n"))

    def test_a_name_that_no_image_has(self) -> None:
        with self.assertRaises(rosm.ScriptError):
            rosm.run("RUN\n", image=("a b", IMAGE))


if __name__ == "__main__":
    unittest.main()
