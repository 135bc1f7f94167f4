"""Inputs of the benchmark's jobs: locks, environments, edit lines and pages of an index, which a seed and the number of a
round determine."""

MASK = (1 << 64) - 1
# how many hexadecimal digits stand ready
POOL = 8192

MARKERS = [
    "sys_platform == 'win32'",
    "sys_platform != 'win32'",
    "python_version < '3.11'",
    "python_full_version >= '3.9.1'",
    "platform_machine == 'x86_64' and sys_platform == 'linux'",
    "platform_python_implementation != 'PyPy'",
    "(platform_machine == 'aarch64' or platform_machine == 'x86_64') and sys_platform != 'darwin'",
    "sys_platform == 'linux' or sys_platform == 'darwin'",
    "python_version >= '3.8' and platform_system != 'Windows'",
    "python_full_version < '3.13' and implementation_name == 'cpython'",
    "os_name == 'nt' and python_version ~= '3.9'",
    "'x86' in platform_machine",
    "'speed' in extras",
    "'docs' in dependency_groups and python_version > '3.7'",
]
PYTHONS = [
    ">=3.8", ">=3.9", ">=3.6", ">=3.7,<4", ">=3.6,!=3.8.0", "~=3.8", ">=3.9,<3.15", ">=2.7,!=3.0.*,!=3.1.*,!=3.2.*",
]
WORDS = (
    "core data http async json yaml proto type lint test cloud graph queue cache auth cli tool web db ml text time file log"
).split()
BINARIES = ["-cp310-cp310-", "-cp311-cp311-", "-cp312-cp312-", "-cp313-cp313-", "-cp39-abi3-", "-cp37-abi3-"]
PLATFORMS = [
    "manylinux_2_17_x86_64.manylinux2014_x86_64",
    "manylinux_2_17_aarch64.manylinux2014_aarch64",
    "macosx_10_13_x86_64",
    "macosx_11_0_arm64",
    "musllinux_1_2_x86_64",
    "win32",
    "win_amd64",
    "manylinux_2_28_x86_64",
    "manylinux_2_5_x86_64.manylinux1_x86_64",
]
SUFFIXES = ["", "", "", "", "", ".post1", "rc1", "b2"]

# What markers read of a platform.
FACTS = ("os_name", "sys_platform", "platform_machine", "platform_system", "platform_release")
LINUX = dict(zip(FACTS, ("posix", "linux", "x86_64", "Linux", "6.8.0-57-generic")))
WINDOWS = dict(zip(FACTS, ("nt", "win32", "AMD64", "Windows", "10")))
MAC = dict(zip(FACTS, ("posix", "darwin", "arm64", "Darwin", "23.4.0")))
# The platforms of the rounds, and the own tags of each.
ROUND = [LINUX, WINDOWS, MAC, LINUX]
GLIBC = [f"manylinux_2_{39 - older}_x86_64" for older in range(35)]
OWN = {
    "linux": [*GLIBC, "manylinux2014_x86_64", "manylinux1_x86_64", "linux_x86_64"],
    "win32": ["win_amd64"],
    "darwin": [
        "macosx_14_0_arm64", "macosx_13_0_arm64", "macosx_12_0_universal2", "macosx_11_0_arm64", "macosx_10_9_universal2",
    ],
}

# The head of a lock that lets every current Python pass.
OPEN = """\
lock-version = "1.0"
environments = ["sys_platform == 'linux'", "sys_platform == 'win32'", "sys_platform == 'darwin'"]
requires-python = ">=3.8"
extras = ["speed", "security"]
dependency-groups = ["docs", "test"]
default-groups = ["test"]
created-by = "uv"
"""
# The head of a lock for a Python that is still to come, so that each answer is one short line.
SHUT = """\
lock-version = "1.0"
requires-python = ">=4"
extras = ["speed"]
dependency-groups = ["docs"]
created-by = "uv"
"""


class Draw:
    """A row of numbers (SplitMix64, by Sebastiano Vigna, in the public domain), and texts that are drawn from it."""

    def __init__(self, seed, round_):
        self.state = seed * 0x100000001B3 & MASK
        self.state = self.next() + round_ & MASK
        # the least digit of each number stands first
        self.pool = "".join(f"{self.next():016x}"[::-1] for _ in range(POOL // 16))

    def next(self):
        self.state = self.state + 0x9E3779B97F4A7C15 & MASK
        mixed = (self.state ^ self.state >> 30) * 0xBF58476D1CE4E5B9 & MASK
        mixed = (mixed ^ mixed >> 27) * 0x94D049BB133111EB & MASK
        return mixed ^ mixed >> 31

    def below(self, bound):
        return self.next() % bound

    def happens(self, percent):
        """Whether something happens that happens so many times in a hundred."""
        return self.below(100) < percent

    def pick(self, texts):
        return texts[self.below(len(texts))]

    def hex(self, count):
        """So many hexadecimal digits, at most 1,024."""
        start = self.below(7000)
        return self.pool[start : start + count]


# ---- environments


def tags(platform, minor):
    """The tags of CPython 3 with this minor version, as installers list them."""
    pythons = [f"cp3{minor}-cp3{minor}", f"cp3{minor}-none", *(f"cp3{minor - older}-abi3" for older in range(6))]
    for own in OWN[platform["sys_platform"]]:
        for python in pythons:
            yield f"{python}-{own}"
    yield "py3-none-any"
    for older in range(minor):
        yield f"py3{minor - older}-none-any"
    yield "py2-none-any"


def environment(platform, minor):
    """The JSON text of an environment of CPython 3 with this minor version."""
    members = {
        **platform,
        "platform_python_implementation": "CPython",
        "platform_version": "#59-Ubuntu SMP",
        "implementation_name": "cpython",
        "python_version": f"3.{minor}",
        "python_full_version": f"3.{minor}.3",
        "implementation_version": f"3.{minor}.3",
    }
    facts = ", ".join(f'"{name}": "{text}"' for name, text in members.items())
    listed = ", ".join(f'"{tag}"' for tag in tags(platform, minor))
    return f'{{"environment": {{{facts}}}, "tags": [{listed}]}}'


# ---- locks as resolvers write them


def release(draw):
    """A version of three numbers, with what may follow them."""
    major, minor, micro = draw.below(13), draw.below(31), draw.below(10)
    return f"{major}.{minor}.{micro}{draw.pick(SUFFIXES)}"


def wheel_tags(draw, is_pure, number):
    """The tags of a wheel, with the dash before them: of different numbers below eighteen different ones."""
    if is_pure:
        return draw.pick(["-py3-none-any", "-py3-none-any", "-py2.py3-none-any"])
    return BINARIES[number % 6] + PLATFORMS[number % 9]


def file_of(draw, name, version, end):
    """The keys of a file; `end` gives the end of its name, once what stands before it is drawn."""
    url = f"https://files.pythonhosted.org/packages/{draw.hex(2)}/{draw.hex(2)}/{draw.hex(60)}/{name}-{version}{end()}"
    day = draw.pick(["01-10", "02-11", "03-19", "05-07", "11-28"])
    facts = f"upload-time = 2025-{day}T10:20:30Z, size = {draw.below(999_999)}"
    return f'{{url = "{url}", {facts}, hashes = {{sha256 = "{draw.hex(64)}"}}}}'


def files(draw, name, version, between):
    """The sdist and the wheels of an entry: of one in two a wheel for every platform, of the others two to eight."""
    is_pure = draw.happens(50)
    sdist = ""
    if not is_pure or draw.happens(60):
        sdist = f"sdist = {file_of(draw, name, version, lambda: '.tar.gz')}{between}"
    count = 1 if is_pure else draw.below(7) + 2
    first = draw.below(18)
    wheels = [
        file_of(draw, name, version, lambda: f"{wheel_tags(draw, is_pure, number)}.whl")
        for number in range(first, first + count)
    ]
    return f"{sdist}wheels = [{''.join(f'{wheel}, ' for wheel in wheels)}]"


def conditions(draw, number):
    """The marker and the set of Pythons of an entry, where it has one."""
    if number % 97 == 5:
        yield "marker = \"'Ubuntu' in platform_version\""
    elif draw.happens(35):
        yield f'marker = "{draw.pick(MARKERS)}"'
    if draw.happens(40):
        yield f'requires-python = "{draw.pick(PYTHONS)}"'


def entry(draw, number, between):
    """The keys of an entry, with a text between two of them."""
    first, second = draw.pick(WORDS), draw.pick(WORDS)
    version = release(draw)
    keys = [f'name = "{first}-{second}-{number}"', f'version = "{version}"', *conditions(draw, number)]
    keys.append('index = "https://pypi.org/simple"')
    return "".join(key + between for key in keys) + files(draw, f"{first}_{second}_{number}", version, between)


def lock(draw, entries, head=OPEN):
    """A lock of so many entries."""
    return head + "".join("\n[[packages]]\n" + entry(draw, number, "\n") for number in range(entries))


# ---- locks at the edges of what is allowed


def awkward_version(draw):
    """A version of a hundred numbers and a local version."""
    numbers = [draw.below(90), *(draw.below(1000) for _ in range(99))]
    return f"{'.'.join(map(str, numbers))}+{draw.hex(40)}"


def awkward_marker(draw, number):
    """A marker that is false in the environment, but for one entry: comparisons side by side, and one in forty
    parentheses."""
    wide = "".join(f"python_full_version >= '3.1' and '{draw.hex(8)}' in platform_version or " for _ in range(30))
    return f"{wide}{'(' * 40}os_name == '{'posix' if number == 20 else 'other'}'{')' * 40}"


def awkward_set(draw):
    """A set of sixty specifiers and one."""
    first = f">=3.{draw.below(5)}"
    return first + "".join(f", !=2.{draw.below(90)}{draw.pick(['.*', '.1', '.2rc1', '.3.post4.dev5'])}" for _ in range(60))


def awkward_sdist(draw):
    """An sdist with an escaped path and a hundred hashes."""
    hashes = "".join(f'h{number} = "{draw.hex(64)}", ' for number in range(100))
    escaped = "\\u00e9\\t\\\\" * 100
    return f'sdist = {{path = "{escaped}/one_name-1.tar.gz", hashes = {{{hashes}sha256 = "00"}}}}\n'


def awkward_wheel(draw):
    """A wheel of up to a thousand tags."""
    pythons = ".".join(f"py{draw.below(400)}" for _ in range(10))
    abis = ".".join(f"abi{draw.below(400)}" for _ in range(10))
    platforms = ".".join([*(f"linux_{draw.below(400)}" for _ in range(9)), draw.pick(PLATFORMS)])
    url = f"https://example.org/one_name-1-{pythons}-{abis}-{platforms}.whl"
    return f'{{url = "{url}", hashes = {{sha256 = "{draw.hex(64)}"}}}}, '


def awkward_entry(draw, number):
    name = draw.pick(["one-name", "One_Name", "one.name"])
    keys = f'name = "{name}"\nversion = "{awkward_version(draw)}"\nmarker = "{awkward_marker(draw, number)}"\n'
    keys += f'requires-python = "{awkward_set(draw)}"\n{awkward_sdist(draw)}'
    return f"\n[[packages]]\n{keys}wheels = [{''.join(awkward_wheel(draw) for _ in range(3))}]\n"


def awkward_lock(draw, entries):
    """A lock with wheels of a thousand tags, deep and wide markers, versions of a hundred numbers, many entries of one name
    and escaped texts."""
    head = 'lock-version = "1.0"\ncreated-by = "by hand"\n'
    return head + "".join(awkward_entry(draw, number) for number in range(entries))


# ---- edit lines


def python_line(draw):
    return f"set python_full_version 3.{draw.pick(['9.', '10.', '11.', '12.', '13.'])}{draw.below(12)}\n"


def tags_line(draw, round_):
    minor = draw.below(5) + 9
    return f"tags {' '.join(tags(ROUND[round_ % 4], minor))}\n"


def switch_line(draw, kind, names):
    return f"{kind}{draw.pick(['+ ', '- '])}{draw.pick(names)}\n"


def policy_line(draw):
    name = f"{draw.pick(WORDS)}-{draw.pick(WORDS)}-{draw.below(100)}"
    return f"policy {name}{draw.pick([' source', ' wheel', ' any'])}\n"


def put_line(draw, number, entries):
    return f"put {draw.below(entries) + 1} {{{entry(draw, number, ', ')}}}\n"


def release_line(draw, number):
    return f"set platform_version #{number}{draw.pick(['-Ubuntu SMP', ' SMP PREEMPT_DYNAMIC Debian'])}\n"


def small_edit(draw, number, entries):
    """A line of a long session of small edits on a lock of so many entries. Most lines set a variable that a hundredth of
    the entries reads."""
    kind = draw.below(64)
    if kind < 4:
        return f"set sys_platform {draw.pick(['linux', 'win32', 'darwin'])}\n"
    if kind < 8:
        return policy_line(draw)
    if kind < 12:
        return switch_line(draw, "extra", ["speed", "Speed", "other"])
    if kind < 16:
        return switch_line(draw, "group", ["docs", "test", "other"])
    if kind < 20:
        return python_line(draw)
    if kind < 24:
        return put_line(draw, number, entries)
    if kind == 24:
        return f"add {{{entry(draw, number, ', ')}}}\n"
    if kind == 25:
        return f"del {draw.below(entries) + 1}\n"
    if kind == 26:
        return "show\n"
    if kind == 27:
        return "unset platform_release\n"
    if kind == 28 and number % 4 == 0:
        return tags_line(draw, number)
    return release_line(draw, number)


def environment_lines(draw, round_):
    """The lines that make of an environment that of another platform and Python."""
    facts = "".join(f"set {name} {text}\n" for name, text in ROUND[round_ % 4].items())
    return facts + python_line(draw) + tags_line(draw, round_)


def coming_line(draw, number):
    """A line that adds an entry with a marker and tags of its own."""
    marker = f"'{draw.hex(12)}' in platform_version or os_name == 'other'"
    wheel = f"coming_{number}-1-py3-none-x{draw.hex(12)}.py3.whl"
    return f'add {{name = "coming-{number}", version = "1", marker = "{marker}", wheels = [{{path = "{wheel}"}}]}}\n'


def coming_lines(draw, number, entries):
    """The lines that add an entry to a lock of so many entries, and delete it again."""
    lines = f"{coming_line(draw, number)}set platform_version {draw.hex(600)}\n"
    if number % 20 == 0:
        lines += tags_line(draw, number)
    return f"{lines}del {number + entries + 1}\n"


# ---- the pages of an index


def specifiers(draw):
    """A set of one to three specifiers."""
    count = draw.below(3)
    written = f"{draw.pick(['>=', '==', '~=', '>', '!='])}{draw.below(9)}.{draw.below(30)}"
    if count > 0:
        written += f",<{draw.below(14)}"
    if count > 1:
        written += f", !={draw.below(9)}.{draw.below(30)}.*"
    return written


def requirement(draw):
    name = f"{draw.pick(WORDS)}-{draw.pick(WORDS)}"
    written = f"{name}{draw.pick(['', '', '', '[speed]', '[speed, security]'])} {specifiers(draw)}"
    if draw.happens(50):
        return f"{written} ; {draw.pick(MARKERS)}"
    return f"{written}; extra == 'speed'" if draw.happens(30) else written


def wheel_lines(draw):
    """The wheels of a project's releases, and a choice among those of each."""
    first, second = draw.pick(WORDS), draw.pick(WORDS)
    for _ in range(15):
        version = release(draw)
        for number in range(6):
            yield f"wheel {first}_{second}-{version}{wheel_tags(draw, draw.happens(20), number)}.whl\n"
        yield "choose\n"


def version_lines(draw):
    """The versions of a project's releases, in order then, and sets that admit some of them."""
    for _ in range(60):
        version = release(draw)
        front = "v" if draw.happens(5) else ""
        yield f"version {front}{version}{draw.pick(['', '', '', '', '', '', '.dev3', '+local.7', '.dev12'])}\n"
    yield "sort\n"
    for _ in range(8):
        yield f"admit {specifiers(draw)}\n"
    yield "next\n"


def pages(draw, projects):
    """The lines of so many projects: wheels, versions, and requirements with their markers."""
    for name, text in LINUX.items():
        yield f"set {name} {text}\n"
    yield "set platform_python_implementation CPython\nset implementation_name cpython\n"
    yield "set python_version 3.12\nset python_full_version 3.12.3\n"
    yield f"tags {' '.join(tags(LINUX, 12))}\n"
    for _ in range(projects):
        yield from wheel_lines(draw)
        yield from version_lines(draw)
        for _ in range(40):
            yield f"requirement {requirement(draw)}\n"
