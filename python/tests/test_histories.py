"""Long lists of edits on a session beside a model of its state: how each edit ends, what it judges again, the answer, and
what becomes of each entry, which are those of a lock and an environment in the state of the model, read and judged from
the beginning."""

import random
import unittest

import pylock

# the numbers from which the edits are drawn, and how many of each
SEEDS = (3709, 7, 12, 440)
EDITS = 300
# the last number that is given out: few, so that a start from the beginning takes little time
LAST = 24

HEAD = """lock-version = "1.0"
created-by = "t"
environments = ["sys_platform != 'wasi'", "'dev' in dependency_groups"]
requires-python = ">=3.8"
extras = ["x", "y"]
dependency-groups = ["dev"]
default-groups = ["main"]
"""
HEAD_READS = {"sys_platform", "groups", "python_full_version"}

# what stands for a number whose entry is gone: it is never active
GONE = """{name = "gone", marker = "'a' == 'b'"}"""

# Entries, each with its name and what it reads. Some share a name, some are at fault or have no source now and then.
ENTRIES = (
    (
        "{name = 'a', wheels = [{path = 'a-1-py3-none-any.whl'}, {path = 'a-1-cp312-cp312-linux_x86_64.whl'}], "
        "sdist = {path = 'a-1.tar.gz'}}",
        "a", {"tags"},
    ),
    (
        "{name = 'a', wheels = [{path = 'a-2-py3-none-any.whl'}], requires-python = '>=3.9', "
        "marker = \"sys_platform == 'win32'\"}",
        "a", {"tags", "python_full_version", "sys_platform"},
    ),
    (
        "{name = 'B_b', wheels = [{path = 'b_b-1-cp312-cp312-linux_x86_64.whl'}], sdist = {path = 'b_b-1.tar.gz'}, "
        "marker = \"python_full_version >= '3.10'\"}",
        "b-b", {"tags", "python_full_version"},
    ),
    ("{name = 'c', sdist = {path = 'c-1.tar.gz'}, marker = \"'x' in extras\"}", "c", {"extras"}),
    ("{name = 'c', sdist = {path = 'c-2.tar.gz'}, marker = \"'y' in extras\"}", "c", {"extras"}),
    ("{name = 'd', directory = {path = 'd'}, marker = \"os_name == 'posix'\"}", "d", {"os_name"}),
    ("{name = 'd', directory = {path = 'd'}, marker = \"os_name == 'nt'\"}", "d", {"os_name"}),
    ("{name = 'e', archive = {path = 'e'}, requires-python = '>=3.9'}", "e", {"python_full_version"}),
    (
        "{name = 'f', vcs = {type = 'git', url = 'f', commit-id = 'f'}, "
        "marker = \"sys_platform == 'linux' and 'y' in extras\"}",
        "f", {"sys_platform", "extras"},
    ),
    (
        "{name = 'g', directory = {path = 'g'}, "
        "marker = \"'dev' in dependency_groups or 'main' in dependency_groups\"}",
        "g", {"groups"},
    ),
    ("{name = 'h', marker = \"os_name == 'java'\"}", "h", {"os_name"}),
    ("{name = 'i', directory = {path = 'i'}, marker = \"platform_release != 'r'\"}", "i", {"platform_release"}),
    (
        "{name = 'j', directory = {path = 'j'}, archive = {path = 'j'}, "
        "marker = \"sys_platform == 'win32' and os_name == 'java'\"}",
        "j", {"sys_platform", "os_name"},
    ),
    (
        "{name = 'k', wheels = [{path = 'k-1-py2-none-any.whl'}], "
        "marker = \"'x' in extras and 'main' in dependency_groups\"}",
        "k", {"tags", "extras", "groups"},
    ),
    (
        "{name = 'l', directory = {path = 'l'}, requires-python = '<3.12', marker = \"python_full_version < '3.12'\"}",
        "l", {"python_full_version"},
    ),
    ("{name = 'm', directory = {path = 'm'}}", "m", set()),
)

TAGS = (
    [],
    ["py3-none-any"],
    ["cp312-cp312-linux_x86_64", "py3-none-any"],
    ["py3-none-any", "cp312-cp312-linux_x86_64"],
)
VARIABLES = {
    "os_name": ("posix", "posix", "nt", "nt", "java", None),
    "sys_platform": ("linux", "linux", "win32", "wasi", None),
    "python_full_version": ("3.12.1", "3.12.1", "3.9.0", "3.8.1", "x", None),
}
# texts of names with the names that they are, or None where the lock knows none of the kind
EXTRAS = (("x", "x"), ("X", "x"), ("y", "y"), ("Y", "y"), ("z", None), ("dev", None), ("y-", None))
GROUPS = (("dev", "dev"), ("Dev", "dev"), ("main", "main"), ("MAIN", "main"), ("x", None), ("devs", None), ("", None))
# names that policies are given to; no entry has the last
POLICIES = (("A", "a"), ("a", "a"), ("b.B", "b-b"), ("B_b", "b-b"), ("C", "c"), ("No_Entry", "no-entry"))


class Model:
    """What the test says of the session."""

    def __init__(self):
        self.entries = {number: ENTRIES[place] for number, place in ((1, 0), (2, 5), (3, 7))}
        self.last = 3
        self.variables = {"os_name": "posix", "sys_platform": "linux", "python_full_version": "3.12.1"}
        self.extras = set()
        self.groups = {"main"}
        self.tags = TAGS[1]
        self.policies = {}

    def readers(self, key):
        """The numbers of what reads the key, 0 for the head."""
        head = [0] if key in HEAD_READS else []
        return tuple(head + [number for number in sorted(self.entries) if key in self.entries[number][2]])

    def lock(self):
        entries = (self.entries[number][0] if number in self.entries else GONE for number in range(1, self.last + 1))
        return (HEAD + "packages = [" + ", ".join(entries) + "]\n").encode()

    def environment(self):
        return {"environment": dict(self.variables, platform_release="s"), "tags": self.tags}

    def answer(self):
        """The answer from the beginning, and what becomes of the head and of each entry that stands."""
        lock, environment = pylock.Lock(self.lock()), self.environment()
        options = dict(
            extras=sorted(self.extras), default_groups=False, groups=sorted(self.groups),
            policies=sorted(self.policies.items()),
        )
        head, entries = lock.explain(environment, **options)
        return outcome(lambda: lock.plan(environment, **options)), head, [entry for entry in entries if entry.name != "gone"]


def outcome(plan):
    """What a call gives: its picks, or the fault."""
    try:
        return plan()
    except pylock.PlanFault as fault:
        return (fault.id, fault.name, fault.code, fault.detail)


# Each kind of edit draws one: it gives the call, the refusal's word or None, and the numbers that are judged again; and
# where it is accepted it has made it in the model.

def asked(draw, model, names, known, key, add, drop):
    text, name = draw.choice(names)
    adds = draw.random() < 0.5
    call = lambda session: (getattr(session, add) if adds else getattr(session, drop))(text)
    if name is None:
        return call, add.split("_")[1], None
    (known.add if adds else known.discard)(name)
    return call, None, model.readers(key)


def extra(draw, model):
    return asked(draw, model, EXTRAS, model.extras, "extras", "add_extra", "drop_extra")


def group(draw, model):
    return asked(draw, model, GROUPS, model.groups, "groups", "add_group", "drop_group")


def variable(draw, model):
    name = draw.choice(sorted(VARIABLES))
    text = draw.choice(VARIABLES[name])
    if text is None:
        model.variables.pop(name, None)
        return lambda session: session.unset(name), None, model.readers(name)
    model.variables[name] = text
    return lambda session: session.set(name, text), None, model.readers(name)


def tags(draw, model):
    model.tags = draw.choice(TAGS)
    return lambda session: session.tags(model.tags), None, model.readers("tags")


def policy(draw, model):
    (text, name), word = draw.choice(POLICIES), draw.choice(("any", "wheel", "source"))
    model.policies[name] = word
    judged = tuple(number for number in sorted(model.entries) if model.entries[number][1] == name)
    return lambda session: session.policy(text, word), None, judged


def entry(draw, model):
    """Brings or takes an entry."""
    entry, number = draw.choice(ENTRIES), draw.randrange(LAST + 2)
    kind = draw.choice(("add", "add", "put", "put", "put", "del", "del"))
    if kind == "add" and model.last < LAST:
        model.last += 1
        model.entries[model.last] = entry
        return lambda session: session.add(entry[0]), None, (model.last,)
    if kind == "del":
        call = lambda session: session.delete(number)
        if number not in model.entries:
            return call, "no-entry", None
        del model.entries[number]
        return call, None, ()
    call = lambda session: session.put(number, entry[0])
    if number not in model.entries:
        return call, "no-entry", None
    model.entries[number] = entry
    return call, None, (number,)


KINDS = (extra, group, variable, variable, tags, policy, entry, entry, entry, entry)


class Histories(unittest.TestCase):
    """Each edit leads where a start from the beginning leads."""

    def check_edit(self, session, edit, word, judged):
        before = session.judged
        if word is None:
            self.assertEqual((edit(session), session.judged), (len(judged), judged))
            return
        with self.assertRaises(pylock.InvalidEdit) as caught:
            edit(session)
        self.assertEqual((caught.exception.word, session.judged), (word, before))

    def check_history(self, seed):
        draw, model = random.Random(seed), Model()
        plans = 0
        with pylock.Session(model.lock(), model.environment()) as session:
            for step in range(EDITS):
                edit, word, judged = draw.choice(KINDS)(draw, model)
                with self.subTest(seed=seed, step=step):
                    self.check_edit(session, edit, word, judged)
                    answer, explanation = outcome(session.answer), session.explain()
                    self.assertEqual((answer, explanation.head, explanation.entries), model.answer())
                    plans += isinstance(answer, list) and len(answer) > 1
        return plans

    def test_histories(self):
        plans = [self.check_history(seed) for seed in SEEDS]
        # histories without plans would show little
        self.assertGreater(sum(plans), 100, plans)


if __name__ == "__main__":
    unittest.main()
