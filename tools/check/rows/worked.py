"""Files of cases, as crates/case_files reads them, and what stands beside them as expected: a text with a block for each case,
which begins with its title, `-- TITLE`."""

import os

try:
    import tomllib
except ImportError:
    tomllib = None


def bytes_in(value):
    """The bytes that a value stands for: a text, a byte, a text that stands so many times, or a list of these."""
    if isinstance(value, str):
        return value.encode()
    if isinstance(value, int):
        return bytes([value])
    if isinstance(value, dict):
        text, times = value["text"], value["times"]
        if "#" in text:
            return "".join(text.replace("#", str(number)) for number in range(times)).encode()
        return text.encode() * times
    return b"".join(map(bytes_in, value))


def title_of(case):
    """The title of a case: its name, or else the texts that it is given."""
    if "name" in case:
        return case["name"]
    texts = []
    for key in sorted(case):
        values = case[key] if isinstance(case[key], list) else [case[key]]
        texts += [value for value in values if isinstance(value, str)]
    return "  ".join(texts)


def read_cases(paths):
    """The kind of each case of the files, and the case."""
    for path in paths:
        with open(path, "rb") as file:
            kinds = tomllib.load(file)
        for kind in sorted(kinds):
            for case in kinds[kind]:
                yield kind, case


def with_expected(paths, expected):
    """Each case of the files, with its kind, its title and what the file `expected` has of it."""
    with open(expected, encoding="utf-8", newline="\n") as file:
        blocks = ("\n" + file.read()).split("\n-- ")[1:]
    cases = list(read_cases(paths))
    if len(cases) != len(blocks):
        raise ValueError(f"{expected} has {len(blocks)} blocks for {len(cases)} cases")
    for (kind, case), block in zip(cases, blocks):
        title = title_of(case)
        if not block.startswith(title + "\n"):
            raise ValueError(f"{expected} has another case where {title!r} should stand")
        yield kind, case, title, block[len(title) + 1 :].rstrip("\n")


def of_program(crate):
    """The cases of a program of cases, each with its kind, its title and what the program prints of it."""
    with open(os.path.join(crate, "args"), encoding="ascii") as file:
        paths = [os.path.join(crate, "data", name) for name in file.read().split()]
    return with_expected(paths, os.path.join(crate, "stdout"))
