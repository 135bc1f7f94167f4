"""The codes of include/pylock.h are the numbers that the definitions give, and the module has an exception for each."""

import re
import unittest

from support import text_of

from pylock import _library, _native


def numbers_of_header(enum):
    """The numbers of an enum of the header, by their names."""
    members = re.search(r"^enum %s \{\n(.*?)^\};" % enum, text_of("include", "pylock.h"), re.MULTILINE | re.DOTALL)[1]
    return {name: int(number) for name, number in re.findall(r"PYLOCK_(\w+) = (\d+)", members)}


def codes_of_header():
    return numbers_of_header("pylock_code")


def codes_of_definitions():
    """The numbers in the definitions that the contracts of the calls cite, under the names of the header."""
    names = {"refusal.Lock": "LOCK_REFUSED", "refusal.Environment": "ENVIRONMENT_REFUSED", "refusal.Findings": "LOCK_FINDINGS"}
    names.update({"line.Memory": "MEMORY", "line.Text": "NOT_UTF8", "refusal.NotUtf8": "NOT_UTF8"})
    rows = re.findall(r"^\w*number (\w+)\.(\w+) = pos (\d+)$", text_of("crates", "pylock_slots", "specs", "Refusal.antt"), re.MULTILINE)
    for kind, variant, code in rows:
        words = re.sub(r"(?<!^)(?=[A-Z])", "_", variant).upper()
        yield names.get(f"{kind}.{variant}", words if kind == "refusal" else f"EDIT_{words}"), int(code)


class Header(unittest.TestCase):
    def test_definitions(self):
        # neither refuses a call
        codes = codes_of_header()
        self.assertEqual((codes.pop("OK"), codes.pop("ROOM")), (0, 4))
        defined = list(codes_of_definitions())
        self.assertEqual(sorted(set(defined)), sorted(codes.items()))

    def test_answers(self):
        rows = re.findall(r"^version_told old \(?of_set\.(\w+).*pos (\d+)\)$", text_of("crates", "pylock_c", "specs", "Algebra.antt"), re.MULTILINE)
        self.assertEqual({word.upper(): int(number) for word, number in rows}, numbers_of_header("pylock_answer"))

    def test_codes(self):
        codes = codes_of_header()
        for name in ("MEMORY", "NOT_UTF8", "EMPTY", "LOCK_REFUSED", "ENVIRONMENT_REFUSED"):
            self.assertEqual(getattr(_native, name), codes.pop(name))
        # the module joins texts as it should
        for name in ("OK", "ROOM", "PARTS", "LOCK_FINDINGS"):
            codes.pop(name)
        self.assertEqual(set(_library._REFUSALS), set(codes.values()))
        for name, code in codes.items():
            *kind, word = name.lower().replace("_", "-").split("-", 1)
            told = _library._REFUSALS[code][1]
            # what is wrong of a tag is the tag
            wanted = {"value": "marker-" + word, "tag": "tag"}.get("".join(kind), word)
            self.assertEqual(wanted, told, name)


if __name__ == "__main__":
    unittest.main()
