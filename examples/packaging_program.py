#!/usr/bin/env python3
"""A program that is written for the library `packaging`: what a project's metadata asks for, and which of an index's
files would serve. With `pylock` in place of `packaging` in the six imports below it prints the same.
"""

from email.parser import HeaderParser

from packaging.markers import Marker
from packaging.requirements import InvalidRequirement, Requirement
from packaging.specifiers import InvalidSpecifier, SpecifierSet
from packaging.tags import parse_tag
from packaging.utils import canonicalize_name, canonicalize_version, parse_sdist_filename, parse_wheel_filename
from packaging.version import InvalidVersion, Version, parse

METADATA = """\
Metadata-Version: 2.1
Name: Sample_Project
Version: 1.0.0-rc.2
Requires-Python: >=3.8,!=3.9.0
Provides-Extra: Test
Provides-Extra: docs
Requires-Dist: numpy>=1.20,<2.3; python_version >= '3.9'
Requires-Dist: numpy (>=1.17,!=1.18.*) ; python_version < '3.9'
Requires-Dist: requests[security,socks]~=2.28.post1
Requires-Dist: colorama ; sys_platform == 'win32' and (platform_machine == 'AMD64' or platform_machine == 'x86')
Requires-Dist: pytest>=7.0a1; extra == 'Test'
Requires-Dist: sphinx @ https://example.org/sphinx-7.0.zip#sha256=00 ; extra == 'docs'
Requires-Dist: tomli; python_full_version < "3.11.0a7"
Requires-Dist: broken =>1.0
Requires-Dist: -broken
"""

FILES = """\
numpy-1.19.5-cp38-cp38-manylinux2010_x86_64.whl
numpy-1.26.4-cp312-cp312-manylinux_2_17_x86_64.manylinux2014_x86_64.whl
numpy-2.2.1-cp312-cp312-manylinux_2_17_x86_64.manylinux2014_x86_64.whl
numpy-2.2.1.tar.gz
numpy-2.3.0rc1-cp312-cp312-win_amd64.whl
requests-2.28.0-py3-none-any.whl
requests-2.28.post1-1-py3-none-any.whl
requests-2.28.post1-2b-py2.py3-none-any.whl
requests-2.31.0-py3-none-any.whl
colorama-0.4.6-py2.py3-none-any.whl
pytest-7.0.0rc1-py3-none-any.whl
pytest-6.2.5.tar.gz
broken-x-py3-none-any.whl
broken.whl
"""

MACHINES = {
    "linux": {
        "os_name": "posix", "sys_platform": "linux", "platform_machine": "x86_64", "python_version": "3.12",
        "python_full_version": "3.12.4", "platform_system": "Linux", "implementation_name": "cpython",
    },
    "windows": {
        "os_name": "nt", "sys_platform": "win32", "platform_machine": "AMD64", "python_version": "3.8",
        "python_full_version": "3.8.10", "platform_system": "Windows", "implementation_name": "cpython",
    },
}
SUPPORTED = {
    "linux": parse_tag("cp312-cp312-manylinux_2_17_x86_64") | parse_tag("py3-none-any"),
    "windows": parse_tag("cp38-cp38-win_amd64") | parse_tag("py2.py3-none-any"),
}


def read_files():
    """The files that have a name and a version, by their project."""
    projects = {}
    for file in FILES.splitlines():
        try:
            if file.endswith(".whl"):
                name, version, build, tags = parse_wheel_filename(file)
            else:
                (name, version), build, tags = parse_sdist_filename(file), (), None
        except ValueError as error:
            print("  left out:", file, type(error).__name__)
            continue
        projects.setdefault(name, []).append((version, tags is not None, build, file, tags))
    return projects


def requirements(metadata):
    """The requirements that can be read."""
    for text in metadata.get_all("Requires-Dist"):
        try:
            yield Requirement(text)
        except InvalidRequirement as error:
            print("  left out:", text, type(error).__name__)


def newest(requirement, files, supported):
    """The newest file that the requirement admits and that is supported: wheels before an sdist."""
    versions = sorted({entry[0] for entry in files})
    admitted = set(requirement.specifier.filter(versions))
    fitting = [
        entry for entry in files if entry[0] in admitted and (entry[4] is None or not supported.isdisjoint(entry[4]))
    ]
    return max(fitting, key=lambda entry: entry[:3], default=None)


def main():
    metadata = HeaderParser().parsestr(METADATA)
    version = Version(metadata["Version"])
    print("project:", canonicalize_name(metadata["Name"]), version, canonicalize_version(version))
    print("release:", version.release, version.pre, version.is_prerelease, version.base_version, version < parse("1"))
    pythons = SpecifierSet(metadata["Requires-Python"])
    print("python:", pythons, len(pythons), sorted(str(one) for one in pythons))
    for text in ("3.7.17", "3.9", "3.9.0", "3.9.1", "3.13.0rc1", "x"):
        try:
            print("  python", text, Version(text) in pythons, pythons.contains(text, prereleases=True))
        except InvalidVersion as error:
            print("  python", text, error)
    print("files:")
    projects = read_files()
    for name in sorted(projects):
        print("  %s: %s" % (name, ", ".join(str(entry[0]) for entry in sorted(projects[name], key=lambda entry: entry[:3]))))
    print("requirements:")
    wanted = list(requirements(metadata))
    for requirement in wanted:
        print("  %s | %s | %s | %s" % (requirement, sorted(requirement.extras), requirement.url, requirement.marker))
    for machine, variables in MACHINES.items():
        for extra in ("", "test"):
            print("%s, extra %r:" % (machine, extra))
            for requirement in wanted:
                marker = requirement.marker
                if marker is not None and not marker.evaluate(dict(variables, extra=extra)):
                    continue
                entry = newest(requirement, projects.get(canonicalize_name(requirement.name), []), SUPPORTED[machine])
                print("  %s: %s" % (requirement.name, entry[3] if entry else "nothing"))
    print(Marker("python_version>'3' and extra=='A_b'"), Marker("os_name=='nt'") == Marker('os_name == "nt"'))
    print(SpecifierSet(">=1.0") & "!=1.5,<2", SpecifierSet(">=1,<2") == SpecifierSet("<2.0,>=1.0"))
    for text in (">=1.0.*", "~=1", "==1.0+local", "1.0"):
        try:
            print("  set", SpecifierSet(text))
        except InvalidSpecifier as error:
            print("  set", text, type(error).__name__)


if __name__ == "__main__":
    main()
