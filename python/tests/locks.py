"""Random tables of locks, sound ones and broken ones, for `test_pylock`."""

import copy
import datetime

UTC = datetime.timezone.utc
FILE_TAGS = [
    "cp312-cp312-manylinux_2_17_x86_64", "cp312-abi3-manylinux_2_17_x86_64", "cp38-abi3-win_amd64", "py3-none-any",
    "py2.py3-none-any", "cp311-cp311-macosx_11_0_arm64",
]
TAGS = [
    "cp312-cp312-manylinux_2_17_x86_64", "cp312-abi3-manylinux_2_17_x86_64", "cp38-abi3-win_amd64",
    "cp311-cp311-macosx_11_0_arm64", "py3-none-any", "py2-none-any",
]
MARKERS = [
    "sys_platform == 'linux'", "os_name=='nt' or sys_platform == 'linux'",
    "python_version >= '3.9' and (os_name == 'nt' or os_name == 'posix')",
    "python_full_version < '3.12.1'", "'science' in extras", "'dev' in dependency_groups or \"test\" in extras",
    "'x' not in extras",
    "platform_machine != 'arm64'", "implementation_name == 'cpython'", "python_version in '3.11 3.12'", "'nux' in sys_platform",
]
SETS = [">=3.8", ">=3.8,<4", ">= 3.9, != 3.10.*", "~=3.8", "==3.*", ">=3.12"]
VERSIONS = ["1.0", "1", "2.0.1rc1", "1!3.4", "2024.1", "1.0+local.1", "v1.2", "1.0.post1", "0.9-1"]
HASHES = [{"sha256": "00"}, {"sha256": "a" * 64, "sha512": "b" * 128}, {"md5": ""}]


def sound_source(dice, name, kind):
    """A source of a kind that isn't a file of an index."""
    place = dice.choice([{"url": "https://h/%s.git" % name}, {"path": "./%s" % name}, {"url": "https://h/x", "path": "x"}])
    beneath = dice.choice([{}, {}, {"subdirectory": "python"}])
    if kind == "vcs":
        revision = dice.choice([{}, {"requested-revision": "main"}])
        return dict({"type": "git", "commit-id": "f0" * 20}, **place, **beneath, **revision)
    if kind == "directory":
        return dict({"path": "../%s" % name}, **beneath, **dice.choice([{}, {"editable": True}, {"editable": False}]))
    return dict({"hashes": dict(dice.choice(HASHES))}, **place, **beneath, **sound_rest(dice))


def sound_rest(dice):
    """What a file may have besides."""
    moment = datetime.datetime(dice.randrange(2000, 2030), 5, 27, 7, 32, dice.randrange(60), dice.choice([0, 0, 123456]), UTC)
    return dict(dice.choice([{}, {"size": dice.choice([0, 5, 1 << 40])}]), **dice.choice([{}, {"upload-time": moment}]))


def sound_file(dice, file):
    """A wheel or an sdist of this file name."""
    place = dice.choice(["name url", "url", "path", "name path", "url fragment", "both", "windows"])
    table = {"hashes": dict(dice.choice(HASHES)), **sound_rest(dice)}
    if "name" in place:
        table["name"] = file
    if "url" in place or place == "both":
        whole = "https://h/files/" + file if "name" not in place else "https://h/blob"
        table["url"] = whole + ("?x=1#sha256=00" if "fragment" in place else "")
    if "path" in place or place == "both":
        table["path"] = "wheels/" + file if "name" not in place else "blob"
    if place == "windows":
        table["path"] = "wheels\\" + file
    return table


def sound_entry(dice, name):
    """An entry."""
    entry = {"name": name}
    version = dice.choice(VERSIONS)
    if dice.random() < 0.8:
        entry["version"] = version
    if dice.random() < 0.5:
        entry["marker"] = dice.choice(MARKERS)
    if dice.random() < 0.3:
        entry["requires-python"] = dice.choice(SETS)
    if dice.random() < 0.2:
        entry["index"] = "https://pypi.org/simple"
    if dice.random() < 0.2:
        entry["dependencies"] = [{"name": "b"}, {"name": "c", "version": "1"}]
    if dice.random() < 0.2:
        entry["attestation-identities"] = [{"kind": "GitHub", "repository": "a/b"}]
    if dice.random() < 0.2:
        entry["tool"] = {"acme": {"list": [1, 2.5, {"deep": datetime.date(2024, 1, 2)}], "on": True}}
    kind = dice.choice(["vcs", "directory", "archive", "wheels", "sdist", "both", "both", "wheels"])
    file = "%s-%s" % (name.replace("-", "_"), version.replace("-1", ".post1"))
    if kind in ("vcs", "directory", "archive"):
        entry[kind] = sound_source(dice, name, kind)
    if kind in ("wheels", "both"):
        entry["wheels"] = [sound_file(dice, "%s-%s.whl" % (file, tag)) for tag in dice.sample(FILE_TAGS, dice.randrange(1, 4))]
    if kind in ("sdist", "both"):
        entry["sdist"] = sound_file(dice, file + dice.choice([".tar.gz", ".zip"]))
    return entry


def sound_lock(dice):
    """A lock that both readers take."""
    lock = {"lock-version": "1.0", "created-by": "me"}
    if dice.random() < 0.3:
        systems = ["sys_platform == 'linux'", "os_name == 'nt'", "sys_platform=='darwin'"]
        lock["environments"] = dice.sample(systems, dice.randrange(0, 4))
    if dice.random() < 0.4:
        lock["requires-python"] = dice.choice(SETS)
    if dice.random() < 0.6:
        lock["extras"] = ["science", "test"][: dice.randrange(3)]
    if dice.random() < 0.5:
        lock["dependency-groups"] = ["dev", "Doc_s"][: dice.randrange(3)]
    if dice.random() < 0.4:
        lock["default-groups"] = dice.choice([["dev"], [], ["main", "DEV"]])
    if dice.random() < 0.2:
        lock["tool"] = {"acme": {"a": [], "\u007f\"\\\n": "\u007f\"\\\n\ud7ff\U0001f600"}}
    names = ["a", "b-c", "numpy", "zope-interface", "x1", "long-name-here"]
    twice = dice.random() < 0.1
    lock["packages"] = [sound_entry(dice, dice.choice(names) if twice else names[place]) for place in range(dice.randrange(0, 6))]
    return lock


WRONG = [
    None, 5, -1, 2.5, True, "", "x y", "Not-Normal", "1.x", "os_name =", ">=x", [], [5], ["x y"], {}, {"a": 5}, [{}],
    "a-1-py3-none-any.whl", "1.1", "2.0", "https://h/other-1.tar.gz", datetime.date(2024, 1, 1),
]


def paths_of(value, path=()):
    """The paths of all keys and members, but of what is below `tool`."""
    found = []
    members = value.items() if isinstance(value, dict) else enumerate(value) if isinstance(value, list) else ()
    for key, member in members:
        found.append(path + (key,))
        if key != "tool":
            found += paths_of(member, path + (key,))
    return found


def broken_lock(dice):
    """A lock, mostly with one thing changed, that may be refused; and what was changed."""
    lock = copy.deepcopy(sound_lock(dice))
    changes = []
    for _ in range(dice.choice([1, 1, 1, 1, 2])):
        paths = paths_of(lock)
        path = dice.choice(paths)
        holder = lock
        for key in path[:-1]:
            holder = holder[key]
        if dice.random() < 0.3:
            del holder[path[-1]]
            changes.append((path, "deleted"))
        else:
            wrong = copy.deepcopy(dice.choice(WRONG))
            holder[path[-1]] = wrong
            changes.append((path, wrong))
    return lock, changes
