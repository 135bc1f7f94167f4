"""Writes a pickle of objects of the `packaging` that is on the path, in base64, for python/tests/test_pickles.py.

    PYTHONPATH=FOLDER python3 python/tests/pickled.py [PROTOCOL]
"""

import base64
import pickle
import sys

VERSIONS = ["1.0", "1!2.0rc1.post2.dev3+Ubuntu.01", "0.dev0", "3.4.5.post0", "1.0a1"]
SPECIFIERS = [">=1.0", "==1.2.*", "~=2.2", "===x", "<3rc1"]
SETS = ["", ">=1.0,<2", "!=1.3,==1.*,>=1.0.0", "===x"]
MARKERS = ["os_name == 'nt'", "python_version >= '3.8' and (extra == 'A_b' or 'x' in sys_platform)", "'a' == os_name or os_name not in 'b c'"]
REQUIREMENTS = ["A_b", "a[x,Y]>=1,<2; os_name == 'nt'", "a @ https://example.org/a.zip", "a==1.*; extra == 'Z'"]
TAGS = [("py3", "none", "any"), ("cp312", "abi3", "manylinux_2_17_x86_64")]


def objects(package):
    """The objects, of the modules of a package."""
    found = {
        "versions": [package.version.Version(text) for text in VERSIONS],
        "specifiers": [package.specifiers.Specifier(text) for text in SPECIFIERS],
        "sets": [package.specifiers.SpecifierSet(text) for text in SETS],
        "markers": [package.markers.Marker(text) for text in MARKERS],
        "requirements": [package.requirements.Requirement(text) for text in REQUIREMENTS],
        "tags": [package.tags.Tag(*pieces) for pieces in TAGS],
        "told": [package.specifiers.Specifier(">=1", prereleases=True), package.specifiers.SpecifierSet(">=1", prereleases=False)],
    }
    for one in found["versions"] + found["sets"] + found["tags"]:
        # what is kept once it was asked
        hash(one)
    # each of them is a key too
    found["keys"] = {one: str(one) for one in found["versions"] + found["sets"] + found["markers"] + found["tags"]}
    return found


def main():
    import packaging.markers
    import packaging.requirements
    import packaging.specifiers
    import packaging.tags
    import packaging.version

    protocol = int(sys.argv[1]) if len(sys.argv) > 1 else pickle.DEFAULT_PROTOCOL
    print(base64.b64encode(pickle.dumps(objects(packaging), protocol)).decode())


if __name__ == "__main__":
    main()
