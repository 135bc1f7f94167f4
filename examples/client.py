#!/usr/bin/env python3
"""Drives `pylock select`: client.py PYLOCK LOCK ENV LINE.. prints what each line is answered."""
import re
import subprocess
import sys

SIGNS = {"t": "\t", "n": "\n", "r": "\r", "\\": "\\", "-": "-"}


class Select:
    def __init__(self, pylock, lock, environment):
        pipes = {"stdin": subprocess.PIPE, "stdout": subprocess.PIPE}
        self.process = subprocess.Popen([pylock, "select", lock, environment], **pipes)
        self.first = self.answer()  # it comes before any line is sent

    def send(self, line):
        self.process.stdin.write(line.encode() + b"\n")
        self.process.stdin.flush()
        return self.answer()

    def answer(self):
        head, *rest = self.fields()
        entries = int(head[5:]) if head.startswith("plan ") else 0
        return head, rest, [self.fields() for _ in range(entries)]

    def fields(self):
        line = self.process.stdout.readline()
        if not line:
            raise EOFError("pylock ended with the status %d" % self.process.wait())
        return [self.text(field) for field in line.decode()[:-1].split("\t")]

    def text(self, field):
        return None if field == "-" else re.sub(r"\\(.)", lambda sign: SIGNS[sign[1]], field)

    def end(self):
        self.process.stdin.close()
        return self.process.wait()


if __name__ == "__main__":
    run, known = Select(*sys.argv[1:4]), set()
    for line in ["", *sys.argv[4:]]:
        head, rest, plan = run.send(line) if line else run.first
        names = {entry[1] for entry in plan}
        print(line or "at the start", "->", head, *rest, *sorted(names - known))
        known |= names
    print("status", run.end())
