#!/usr/bin/python3
"""Each record of each sample keeps to schema.json: web/test/schema_test.py, with python3-jsonschema of Debian."""
import json
import sys
import unittest
from pathlib import Path

try:
    import jsonschema
except ImportError as missing:
    WANTED = "there is no jsonschema here: apt-get install -y python3-jsonschema"
    if __name__ == "__main__":
        sys.exit("schema_test: " + WANTED)
    raise unittest.SkipTest(WANTED) from missing

WEB = Path(__file__).resolve().parent.parent
SCHEMA = json.loads((WEB / "schema.json").read_text(encoding="ascii"))
KINDS = {kind["title"]: jsonschema.Draft202012Validator({**kind, "$defs": SCHEMA["$defs"]}) for kind in SCHEMA["oneOf"]}


def faults(record: dict[str, object]) -> list[str]:
    kind = next(iter(record))
    if kind not in KINDS:
        return [f"no kind {kind}"]
    return [f"{list(error.absolute_path)}: {error.message[:200]}" for error in KINDS[kind].iter_errors(record)]


class SchemaTest(unittest.TestCase):
    def test_samples_keep_to_the_schema(self) -> None:
        samples = sorted((WEB / "test/data").glob("*.jsonl"))
        self.assertGreater(len(samples), 20)
        for sample in samples:
            for line in sample.read_text(encoding="ascii").splitlines():
                with self.subTest(sample.stem, line=line[:60]):
                    self.assertRegex(line, r"^[ -;=-~]+$")
                    self.assertEqual(faults(json.loads(line)), [])

    def test_what_is_no_record_does_not(self) -> None:
        for record in ({"step": 1, "pc": -1}, {"step": 1}, {"line": 0, "text": ""}, {"answer": 1, "other": 2},
                       {"step": 1, "pc": 0, "regs": {"R15": 0}}, {"end": 2}, {"other": 1},
                       {"step": 1, "pc": 0, "heaps": [{"heap": 0, "items": [["*", "live", 0, 0]]}]}):
            with self.subTest(record=record):
                self.assertNotEqual(faults(record), [])


if __name__ == "__main__":
    unittest.main()
