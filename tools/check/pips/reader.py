"""How the pip that this Python imports reads requirements files: `python3 reader.py CASES READINGS`, in the folder that paths
are meant from. CASES has a JSON text on each line, an object with `text`, what the file holds, and `files` and
`directories`, the absolute paths at which something stands; nothing is on the disk but these. READINGS gets a line for each:
a list of what pip's own parser and its `Link` make of each requirement, or a text where it refuses the file."""

import json
import os
import sys
import tempfile
import urllib.parse

sys.dont_write_bytecode = True
from pip._internal.network.session import PipSession
from pip._internal.req.constructors import install_req_from_parsed_requirement
from pip._internal.req.req_file import parse_requirements
from pip._internal.vcs import vcs
from pip._vendor import requests


class Disk:
    """What os.path tells while pip reads a line: that these stand, each directory with a project in it, and nothing else."""

    def __init__(self, files, directories):
        self.files, self.directories = set(files), set(directories)
        self.kept = os.path.isfile, os.path.isdir, os.path.exists

    def is_project(self, path):
        folder, name = os.path.split(os.path.abspath(path))
        return name in ("pyproject.toml", "setup.py") and folder in self.directories

    def is_file(self, path):
        return os.path.abspath(path) in self.files or self.is_project(path)

    def is_directory(self, path):
        return os.path.abspath(path) in self.directories

    def __enter__(self):
        os.path.isfile, os.path.isdir, os.path.exists = self.is_file, self.is_directory, self.is_project

    def __exit__(self, *_):
        os.path.isfile, os.path.isdir, os.path.exists = self.kept


def asked(url):
    """The host, and the last part of the path, that pip's `requests` asks for."""
    parts = urllib.parse.urlsplit(requests.Request("GET", url).prepare().url)
    return [parts.hostname, parts.port, urllib.parse.unquote(parts.path.split("/")[-1])]


def of_link(link):
    """What pip takes of a URL."""
    parts = urllib.parse.urlsplit(link.url)
    found = {
        "url": link.url, "host": parts.hostname, "port": parts.port, "user": parts.username, "password": parts.password,
        "filename": link.filename, "hash": link.hash, "hash name": link.hash_name, "egg": link.egg_fragment,
        "subdirectory": link.subdirectory_fragment, "is vcs": link.is_vcs, "is wheel": link.is_wheel,
    }
    if link.scheme == "file":
        found["path"] = link.file_path
    elif link.is_vcs:
        backend = vcs.get_backend_for_scheme(link.scheme)
        url, commit, user = backend.get_url_rev_and_auth(link.url)
        found.update({"system": backend.name, "repository": url, "commit": commit, "credentials": list(user),
            "repository host": urllib.parse.urlsplit(url).hostname})
    else:
        found["asked"] = asked(link.url)
    return found


def of_requirement(requirement):
    found = {
        "name": requirement.name, "extras": sorted(requirement.extras), "editable": requirement.editable,
        "marker": str(requirement.markers) if requirement.markers else None, "constraint": requirement.constraint,
        # what a file has to match: all that pip allows, whoever told it
        "hashes": [requirement.hashes(trust_internet=trust)._allowed for trust in (False, True)],
        "options": sorted(requirement.hash_options),
    }
    return {**found, **(of_link(requirement.link) if requirement.link else {"url": None})}


def refusal(error):
    """Of which kind it is, and its first words."""
    return f"{type(error).__name__}: {str(error)[:300]}"


def read(case, path, session):
    with open(path, "w", encoding="utf-8", newline="") as file:
        file.write(case["text"])
    try:
        parsed = list(parse_requirements(path, session))
    except Exception as error:
        return refusal(error)
    readings = []
    for each in parsed:
        try:
            with Disk(case["files"], case["directories"]):
                requirement = install_req_from_parsed_requirement(each)
            readings.append(of_requirement(requirement))
        except Exception as error:
            readings.append(refusal(error))
    return readings


def main():
    cases, readings = sys.argv[1:]
    session = PipSession()
    print("ready", flush=True)
    memory = "/dev/shm" if os.access("/dev/shm", os.W_OK) else None
    with tempfile.TemporaryDirectory(dir=memory) as folder, open(cases, encoding="utf-8") as given, \
            open(readings, "w", encoding="utf-8") as told:
        for line in given:
            told.write(json.dumps(read(json.loads(line), f"{folder}/requirements.txt", session)) + "\n")


if __name__ == "__main__":
    main()
