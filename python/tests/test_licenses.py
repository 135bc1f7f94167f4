"""License expressions (PEP 639): their rules, and the same texts put to `packaging`."""

import unittest

from peer import needs, peer, seeded
import support  # noqa: F401 - puts the module on the path

import pylock.licenses
from pylock.licenses import InvalidLicenseExpression, _spdx, canonicalize_license_expression

theirs = peer("licenses")

# texts and their normal form: PEP 639 has the first, the grammar of SPDX the others
TAKEN = [
    ("MIT", "MIT"),
    ("mit", "MIT"),
    ("BSD-3-Clause", "BSD-3-Clause"),
    ("MIT AND (Apache-2.0 OR BSD-2-Clause)", "MIT AND (Apache-2.0 OR BSD-2-Clause)"),
    ("MIT OR GPL-2.0-or-later OR (FSFUL AND BSD-2-Clause)", "MIT OR GPL-2.0-or-later OR (FSFUL AND BSD-2-Clause)"),
    ("GPL-3.0-only WITH Classpath-exception-2.0 OR BSD-3-Clause", "GPL-3.0-only WITH Classpath-exception-2.0 OR BSD-3-Clause"),
    ("LicenseRef-Special-License OR CC0-1.0 OR Unlicense", "LicenseRef-Special-License OR CC0-1.0 OR Unlicense"),
    ("LicenseRef-Proprietary", "LicenseRef-Proprietary"),
    ("  mit\tor\napache-2.0 ", "MIT OR Apache-2.0"),
    ("(mit)or( 0bsd )", "(MIT) OR (0BSD)"),
    ("((mit))", "((MIT))"),
    ("licenseref-foo.BAR-1", "LicenseRef-foo.BAR-1"),
    ("gpl-2.0+", "GPL-2.0+"),
    ("apache-2.0+ with llvm-exception", "Apache-2.0+ WITH LLVM-exception"),
    ("(gpl-2.0-only) with classpath-exception-2.0", "(GPL-2.0-only) WITH Classpath-exception-2.0"),
    ("mit with llvm-exception and 0bsd", "MIT WITH LLVM-exception AND 0BSD"),
    ("lgpl-2.1++", "LGPL-2.1++"),
]
REFUSED = [
    "", " ", "()", "(", ")", "(MIT", "MIT)", ")MIT(", "MIT MIT", "MIT OR", "OR MIT", "MIT OR OR MIT", "MIT AND ()",
    "MIT AND (OR 0BSD)", "(MIT OR) 0BSD", "MIT (OR 0BSD)", "(MIT)(0BSD)", "MIT (0BSD)", "NOT MIT", "MIT AND NOT MIT",
    "and", "with", "Use-it-after-midnight", "Apache-2.0 OR 2-BSD-Clause", "LicenseRef-License with spaces",
    "LicenseRef-License_with_underscores", "LicenseRef", "LicenseRef-\u00e9", "DocumentRef-x:LicenseRef-y",
    "AdditionRef-x", "MIT WITH AdditionRef-x", "MIT WITH", "WITH LLVM-exception", "MIT WITH 0BSD", "LLVM-exception",
    "MIT WITH (LLVM-exception)", "MIT WITH LLVM-exception+", "MIT WITH LicenseRef-x", "GPL-2.0 +", "+", "MIT++",
    "MIT/0BSD", "MIT, 0BSD", "MIT;0BSD", "M\u0130T", "True", "None", "lambda: MIT", "MIT if MIT else MIT",
]
# what `packaging` takes or fails over, and the grammar hasn't
OTHERWISE = ["LicenseRef-", "LicenseRef-\u212a", "MIT WITH (0BSD)", "LicenseRef-x+"]


def answer(library, text):
    try:
        return library.canonicalize_license_expression(text)
    except library.InvalidLicenseExpression:
        return None


class Rules(unittest.TestCase):
    def test_taken(self):
        for text, expected in TAKEN:
            with self.subTest(text):
                self.assertEqual(canonicalize_license_expression(text), expected)
                self.assertEqual(canonicalize_license_expression(expected), expected)

    def test_refused(self):
        for text in REFUSED + OTHERWISE:
            with self.subTest(text), self.assertRaises(InvalidLicenseExpression) as caught:
                canonicalize_license_expression(text)
            self.assertIsInstance(caught.exception, ValueError)
            self.assertIn(repr(text), str(caught.exception))

    def test_ids(self):
        licenses, exceptions = _spdx.LICENSE_IDS.split(), _spdx.EXCEPTION_IDS.split()
        for ids in (licenses, exceptions):
            self.assertEqual(len({one.lower() for one in ids}), len(ids))
        for one in licenses:
            self.assertEqual(canonicalize_license_expression(one.upper()), one)
        for one in exceptions:
            self.assertEqual(canonicalize_license_expression("mit with " + one.lower()), "MIT WITH " + one)

    def test_deep_and_long(self):
        for text in ("(" * 5000 + "MIT" + ")" * 5000, " OR ".join(["MIT"] * 20000)):
            self.assertEqual(canonicalize_license_expression(text), text)


@needs(theirs)
class Beside(unittest.TestCase):
    def test_tables(self):
        for text in [text for text, _ in TAKEN] + REFUSED:
            with self.subTest(text):
                self.assertEqual(answer(pylock.licenses, text), answer(theirs, text))

    def test_random(self):
        source = seeded("licenses")
        words = ["mit", "MIT", "Apache-2.0", "gpl-2.0+", "lgpl-2.1+", "licenseref-A.b", "0bsd+", "llvm-exception"]
        words += ["(", ")", "and", "OR", "or", "With"]
        odd = ["not", "foo", "+", ",", "LicenseRef-a_b", "mit(", "(mit", "mit)", "x-exception", "\u00a0"]
        taken = 0
        for _ in range(20000):
            chosen = source.choices(words, k=source.randrange(1, 8))
            if source.random() < 0.5:
                # an operator between any two: more of these are expressions
                operators = source.choices(["and", "or", "with"], [4, 4, 1], k=4)
                chosen = [word for pair in zip(chosen[::2], operators) for word in pair][:-1]
            if source.random() < 0.1:
                chosen.insert(source.randrange(len(chosen) + 1), source.choice(odd))
            text = source.choice([" ", " ", "  ", "\n"]).join(chosen)
            with self.subTest(text):
                expected = answer(theirs, text)
                # a license in parentheses is no exception of one
                wanted = None if expected is not None and "WITH (" in expected else expected
                self.assertEqual(answer(pylock.licenses, text), wanted)
            taken += expected is not None
        self.assertGreater(taken, 2000)

    def test_ids(self):
        listed = peer("licenses._spdx")
        if listed.VERSION != _spdx.VERSION:
            self.skipTest("another list: SPDX %s" % listed.VERSION)
        for name in ("LICENSES", "EXCEPTIONS"):
            self.assertEqual(getattr(_spdx, name), getattr(listed, name))
            self.assertEqual(getattr(pylock.licenses, name), getattr(_spdx, name))

    def test_differences(self):
        """What the page has as different, is."""
        self.assertEqual([answer(theirs, text) for text in OTHERWISE[:-1]], OTHERWISE[:-1])
        self.assertRaises(KeyError, answer, theirs, OTHERWISE[-1])
        try:
            self.assertIsNone(answer(theirs, "(" * 1000 + "MIT" + ")" * 1000))
        except MemoryError:
            # what Python 3.8 raises
            pass

    def test_names(self):
        self.assertEqual(sorted(pylock.licenses.__all__), sorted(theirs.__all__))


if __name__ == "__main__":
    unittest.main()
