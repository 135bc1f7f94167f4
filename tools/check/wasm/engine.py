"""Where the module for WebAssembly runs: in a headless Chromium, or in a Node with memories of 64 bits."""

import base64
import glob
import json
import os
import re
import shutil
import subprocess
import sys

sys.path.insert(0, os.path.realpath(f"{__file__}/../.."))
import browser
import found
from checks import TOP

HERE = os.path.dirname(os.path.realpath(__file__))
# the first with memories of 64 bits
CHROMIUM, NODE = 133, 24
# Where a Node of Debian sid lies, which apt-get fetches there. It looks for parts of itself in /usr/share, so it runs with a mount of
# its own.
KEPT = f"{TOP}/out/node"
MOUNTED = """#!/bin/sh
exec unshare --map-root-user --mount sh -c 'mount -t tmpfs none /usr/share && mkdir /usr/share/nodejs &&
    mount --bind "$0/usr/share/nodejs" /usr/share/nodejs && lib=$0/usr/lib/x86_64-linux-gnu &&
    exec "$lib/ld-linux-x86-64.so.2" --library-path "$lib" "$0/usr/bin/node" "$@"' "${0%/run}" "$@"
"""


def content(path):
    with open(path, "rb") as file:
        return file.read()


def text(data):
    return base64.b64encode(data).decode()


def version_of(program):
    told = subprocess.run([program, "--version"], stdout=subprocess.PIPE, stderr=subprocess.DEVNULL).stdout.decode("utf-8", "replace")
    found = re.search(r"([0-9]+)\.[0-9]+", told)
    return int(found[1]) if found else 0


class Chromium:
    """A tab of a browser."""

    name = "Chromium"

    @staticmethod
    def lack():
        """Why there is none."""
        path = browser.program()
        if path is None:
            return "there is no chromium"
        return "" if version_of(path) >= CHROMIUM else f"its chromium is older than {CHROMIUM}"

    def __init__(self, folder):
        self.browser = browser.Browser()
        self.browser.evaluate(content(f"{HERE}/serve.js").decode() + ";0")
        script, module = content(f"{folder}/pylock.mjs").decode(), text(content(f"{folder}/pylock.wasm"))
        self.browser.evaluate(f"globalThis.moduleText = {json.dumps(module)}; 0")
        self.browser.evaluate(
            f"""(async () => {{
                const address = URL.createObjectURL(new Blob([{json.dumps(script)}], {{ type: "text/javascript" }}));
                globalThis.api = await import(address);
                globalThis.module = bytesOf(moduleText);
                globalThis.pylock = await api.load(module);
            }})()"""
        )

    def answers(self, runs):
        return self.browser.evaluate(f"{json.dumps(runs)}.map((run) => answerOf(pylock, run))")

    def evaluate(self, script):
        return self.browser.evaluate(script)

    def close(self):
        self.browser.close()


def fetched():
    """The path of a Node of Debian sid; raises Absent."""
    path = f"{KEPT}/run"
    if not os.path.isfile(path):
        room = f"{KEPT}.room"
        apt = found.prepared("sid", room)
        found.run(*apt, "install", "--download-only", "--no-install-recommends", "-y", "nodejs")
        for package in glob.glob(f"{room}/cache/archives/*.deb"):
            found.run("dpkg-deb", "-x", package, f"{room}/unpacked")
        found.write(f"{room}/unpacked/run", MOUNTED)
        os.chmod(f"{room}/unpacked/run", 0o755)
        shutil.rmtree(KEPT, ignore_errors=True)
        os.rename(f"{room}/unpacked", KEPT)
        shutil.rmtree(room)
    return path


class Node:
    """A process of Node."""

    name = "Node"
    path = None

    @classmethod
    def lack(cls):
        """Why there is none. One that PYLOCK_NODE names comes first, then this machine's, then Debian's."""
        for path in (os.environ.get("PYLOCK_NODE"), shutil.which("node")):
            if path and version_of(path) >= NODE:
                cls.path = path
                return ""
        try:
            cls.path = fetched()
        except found.Absent as absent:
            return f"there is no node from {NODE} on (PYLOCK_NODE names one), and {absent}"
        return "" if version_of(cls.path) >= NODE else f"the node of Debian sid is older than {NODE}, or doesn't run here"

    def __init__(self, folder):
        place = os.path.abspath(folder)
        script = f"""
            import {{ createInterface }} from "node:readline";
            import {{ readFileSync }} from "node:fs";
            (0, eval)({json.dumps(content(f"{HERE}/serve.js").decode() + ";Object.assign(globalThis, {bytesOf, textOf, within, answerOf})")});
            globalThis.api = await import({json.dumps(f"file://{place}/pylock.mjs")});
            globalThis.module = new Uint8Array(readFileSync({json.dumps(f"{place}/pylock.wasm")}));
            globalThis.pylock = await api.load();
            for await (const line of createInterface({{ input: process.stdin }})) {{
                let told;
                try {{ told = {{ value: await (0, eval)(JSON.parse(line)) }}; }} catch (error) {{ told = {{ error: String(error) }}; }}
                process.stdout.write(JSON.stringify(told) + "\\n");
            }}
        """
        self.process = subprocess.Popen(
            [self.path, "--input-type=module", "--eval", script], stdin=subprocess.PIPE, stdout=subprocess.PIPE, cwd="/"
        )

    def evaluate(self, script):
        self.process.stdin.write(json.dumps(script).encode() + b"\n")
        self.process.stdin.flush()
        told = json.loads(self.process.stdout.readline())
        if "error" in told:
            raise browser.Failed(told["error"])
        return told.get("value")

    def answers(self, runs):
        return self.evaluate(f"{json.dumps(runs)}.map((run) => answerOf(pylock, run))")

    def close(self):
        self.process.stdin.close()
        self.process.wait()
