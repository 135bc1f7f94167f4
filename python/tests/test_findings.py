"""What `Lock.audit` is asked beside: advisories, hosts, and what is ignored."""

import json
import tempfile
import unittest

from support import refused
from test_manners import LOCK

import pylock
from pylock import Finding, _library

SUM = "0" * 64
URLS = ("https://A.example/a.tar.gz", "https://b.example:8443/b.tar.gz")
SOURCES = ["archive = {url = '%s', hashes = {sha256 = '%s'}}" % (url, SUM) for url in URLS]
CONTENT = """
lock-version = "1.0"
created-by = "t"
packages = [{name = "a", version = "1.5", %s}, {name = "b", version = "2.0", %s}]
""" % (*SOURCES,)


def advisory(id, name, **more):
    return {"id": id, "affected": [{"package": {"ecosystem": "PyPI", "name": name}, **more}]}


OF_A = {
    **advisory("G-1", "A", ranges=[{"type": "ECOSYSTEM", "events": [{"introduced": "1.0"}, {"fixed": "1.6"}]}]), "aliases": ["CVE-1", "CVE-2"],
}
OF_B = advisory("G-2", "b", versions=["2.0"])
A = Finding(1, "a", "vulnerable", "G-1 CVE-1,CVE-2 fixed 1.6")
B = Finding(2, "b", "vulnerable", "G-2 no fix")
ELSEWHERE = Finding(2, "b", "other-host", URLS[1])


def bytes_of(*documents):
    return "".join(json.dumps(document) + "\n" for document in documents).encode()


def lacks():
    """Whether the library has no such options yet."""
    status, _, said = _library.run_program((b"pylock", b"audit", b"-", b"--json", b"--host=h"), (), CONTENT.encode())
    return status == 2 and said.startswith(b"error: unexpected argument")


class Types(unittest.TestCase):
    def test_wrong_types(self):
        lock = pylock.Lock.read(CONTENT.encode())
        for options in (
            {"advisories": "a"}, {"advisories": b"[]"}, {"advisories": [1]}, {"advisories": None}, {"hosts": "h"}, {"hosts": [1]}, {"ignore": "no-hash"},
            {"ignore": b"no-hash"}, {"ignore": [None]},
        ):
            with self.assertRaises(TypeError):
                lock.audit(**options)
        with self.assertRaises(FileNotFoundError):
            lock.audit(advisories=["/absent/advisories.json"])
        # nothing is asked beside
        self.assertEqual(lock.audit(advisories=[], hosts=iter(()), ignore=()), [])


@unittest.skipIf(lacks(), "the library reads no advisories yet")
class Findings(unittest.TestCase):
    def setUp(self):
        self.lock = pylock.Lock.read(CONTENT.encode())

    def test_advisories(self):
        self.assertEqual(self.lock.audit(), [])
        for files, found in (
            ([bytes_of(OF_A)], [A]), ([bytes_of(OF_A, OF_B)], [A, B]), ([json.dumps([OF_A, OF_B]).encode()], [A, B]),
            ([bytes_of(OF_B), bytes_of(OF_A)], [A, B]), ([b"[]"], []),
        ):
            self.assertEqual(self.lock.audit(advisories=iter(files)), found)
        with tempfile.NamedTemporaryFile() as file:
            file.write(bytes_of(OF_B))
            file.flush()
            self.assertEqual(self.lock.audit(advisories=[file.name, memoryview(bytes_of(OF_A))]), [A, B])

    def test_many_files(self):
        self.assertEqual(self.lock.audit(advisories=[b"[]"] * 11 + [bytes_of(OF_B)]), [B])

    def test_hosts(self):
        self.assertEqual(self.lock.audit(hosts=["a.example"]), [ELSEWHERE])
        self.assertEqual(self.lock.audit(hosts=["a.example", "B.example:8443"]), [])
        self.assertEqual(len(self.lock.audit(hosts=["b.example"])), 2)

    def test_together(self):
        asked = {"environments": True, "advisories": [bytes_of(OF_A, OF_B)], "hosts": ["a.example"]}
        self.assertEqual(self.lock.audit(**asked), [A, B, ELSEWHERE])
        for ignore, found in (
            (["vulnerable"], [ELSEWHERE]), (["vulnerable:A"], [B, ELSEWHERE]), (["other-host:a", "vulnerable:b"], [A, ELSEWHERE]),
            (["other-host", "vulnerable:a"], [B]),
        ):
            self.assertEqual(self.lock.audit(ignore=ignore, **asked), found)
        found = pylock.Lock.read(LOCK).audit()
        self.assertEqual(pylock.Lock.read(LOCK).audit(ignore=["no-hash:D"]), [one for one in found if (one.finding, one.name) != ("no-hash", "d")])

    def test_refused_advisories(self):
        for files, words in (
            ([b"["], ("1", "1", "json")), ([b"\xff"], ("1", "1", "json")), ([b"[]", b"[1]"], ("2", "1", "object")),
            ([bytes_of(OF_A, {**OF_B, "id": 5})], ("1", "2", "member", "id")),
        ):
            with refused(self, pylock.InvalidAdvisories, words[2], int(words[1])) as caught:
                self.lock.audit(advisories=files)
            self.assertEqual((caught.exception.words, caught.exception.file), (words, int(words[0])))
            self.assertTrue(str(caught.exception).startswith("advisories-%s: " % words[0]))

    def test_refused_words(self):
        for text, word in (("none", "finding"), ("", "finding"), ("no-hash:-", "name"), ("no-hash:", "name")):
            with refused(self, pylock.InvalidEdit, word) as caught:
                self.lock.audit(ignore=["no-hash", text], advisories=[b"["])
            self.assertIn(text.rpartition(":")[2], str(caught.exception))
        with self.assertRaises(pylock.InvalidEdit):
            self.lock.audit(ignore=["\ud800"])


class Refusals(unittest.TestCase):
    def test_raised(self):
        """One that a program raises itself has no words."""
        refusal = pylock.InvalidAdvisories("x")
        self.assertEqual((str(refusal), refusal.words, refusal.file, refusal.word, refusal.place), ("x", (), None, "", None))
