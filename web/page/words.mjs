// What the words of the library's documents mean, in sentences.

const VERDICTS = {
    ok: ["applies", "The lock applies to this environment."],
    skipped: ["skipped", "Its marker is false here."],
    "marker-unset": ["fault", "Its marker reads a variable that has no value here."],
    "marker-extra": ["fault", "Its marker reads extra, which no lock gives."],
    "marker-undefined": ["fault", "Its marker has ~= or === where no versions are compared."],
    "marker-number": ["fault", "Its marker compares a number of more than 128 bits."],
    "python-unknown": ["fault", "The version of Python isn't known here, and requires-python asks for one."],
    "python-not-met": ["fault", "Its requires-python doesn't admit this Python."],
    "no-environment": ["fault", "None of the lock's environments is true here."],
    ambiguous: ["fault", "An earlier entry of the same name applies too."],
    sources: ["fault", "It has sources of several kinds."],
    "no-file": ["fault", "None of its files may be taken here."],
    wheel: ["installed", "Installed from a wheel."],
    sdist: ["installed", "Built from a source distribution, and installed."],
    vcs: ["installed", "Built from a checkout, and installed."],
    directory: ["installed", "Built from a directory, and installed."],
    editable: ["installed", "Installed from a directory, editable."],
    archive: ["installed", "Built from an archive, and installed."],
};

export const FINDINGS = {
    "lock-version": "The lock's version isn't 1.0.",
    "unknown-key": "PEP 751 doesn't name this key.",
    "wrong-type": "This key has another type than PEP 751 gives it.",
    "no-packages": "The key packages is absent.",
    "name-form": "The name, or an extra of the lock, isn't in normal form.",
    version: "The version is none by PEP 440.",
    "marker-extra": "The marker reads extra, so it is a fault everywhere.",
    "readings-differ": "The marker compares a variable in a way that installers read differently, as texts or as versions.",
    "undeclared-name": "The marker asks for an extra or a group that the lock doesn't declare.",
    "no-source": "The entry has no source.",
    "several-sources": "The entry has sources of several kinds.",
    "no-hash": "This file has no hash.",
    "weak-hash": "None of its hashes is of a strong algorithm.",
    "odd-hash": "A hash has a comma or an equals sign in it.",
    "bad-hash": "A hash isn't of its algorithm's number of hex digits.",
    "no-wheel-name": "The file name of a wheel is absent or can't be read.",
    "no-sdist-name": "The file name of an sdist is absent or can't be read.",
    "other-name": "This file is of another package.",
    "other-version": "This file is of another version.",
    "same-file-name": "An earlier wheel of the entry has this file name.",
    "unsafe-file-name": "The file name has a slash or a control character, or names a folder.",
    "outside-path": "The path leaves the folder of the lock.",
    "unsafe-subdirectory": "The subdirectory leaves its source.",
    "not-https": "The URL isn't of https.",
    credentials: "A user or a password stands in the URL.",
    "secret-in-url": "The query of the URL has a password, a token or the like.",
    "moving-commit": "The commit isn't a full hash, so it may move.",
    "control-character": "The text has a control character.",
    clash: "This entry and an earlier one of its name both apply in an environment of the lock.",
    "may-clash": "This entry and an earlier one of its name may both apply in an environment of the lock.",
    never: "The entry applies in no environment of the lock.",
    "may-never": "The entry may apply in no environment of the lock.",
    "narrower-python": "Its requires-python doesn't admit a Python for which its marker asks for it.",
    "may-be-narrower": "Its requires-python may not admit a Python for which its marker asks for it.",
    vulnerable: "An advisory affects the package at this version.",
    "other-host": "The URL's host is none of those that are asked for.",
};

export const CHANGES = {
    head: "a key of the lock's head",
    added: "only the new lock has the package",
    removed: "only the old lock has the package",
    version: "another version",
    hash: "other hashes for the same file name",
    file: "a file that one lock alone has",
    place: "another place of the same file",
    condition: "other markers or other Pythons",
    key: "another value of a key",
    fault: "one of the plans is a fault",
    pick: "another pick",
};

export const FORMS = [
    ["", "Plan, in lines", "plan.txt"],
    ["json", "Plan, as JSON", "plan.json"],
    ["requirements", "requirements: files, for pip install --no-deps -r", "requirements.txt"],
    ["requirements-local", "requirements-local: checkouts and directories, for a second run of pip", "requirements-local.txt"],
    ["sha256sum", "sha256sum, for sha256sum -c", "SHA256SUMS"],
    ["aria2", "aria2, for aria2c -i", "aria2.txt"],
    ["urls", "URLs, for wget -i", "urls.txt"],
];

export const classOf = (verdict) => VERDICTS[verdict]?.[0] ?? "fault";

export const sentenceOf = (verdict) => VERDICTS[verdict]?.[1] ?? verdict;
