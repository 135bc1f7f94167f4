// The library's commands: documents in, documents out. What is refused is thrown as a Refusal.

export const LOCK_FILE = "pylock.toml"; // the name under which a lock is handed to a command

export const VARIABLES = [
    "implementation_name", "implementation_version", "os_name", "platform_machine", "platform_python_implementation",
    "platform_release", "platform_system", "platform_version", "python_full_version", "python_version", "sys_platform",
];

// A lock, an environment or an option that the library refuses: the members of its document.
export class Refusal extends Error {
    constructor(members, bytes) {
        super(members.message ?? members.refused.join(" "));
        Object.assign(this, members);
        this.bytes = bytes;
    }
}

export class Library {
    constructor(pylock) {
        this.pylock = pylock;
        this.targets = new Map();
    }

    // What a command prints, whatever its status but an early end.
    run(words, files = {}) {
        const ran = this.pylock.run(words, files, "");
        if (ran.status === 3) throw new Error(withoutPrefix(ran.diagnostics) || "the module ended early");
        return ran;
    }

    // The document of a command. A refused lock or option is thrown, with the bytes of the file that is meant.
    document(words, files = {}) {
        const ran = this.run([...words.slice(0, 1), "--json", ...words.slice(1)], files);
        if (ran.output === "") throw new Error(withoutPrefix(ran.diagnostics));
        const found = JSON.parse(ran.output);
        if (found.refused) throw new Refusal(found, files[found.file]);
        return found;
    }

    // The environment of a target: its text, its variables and its tags.
    target(python, platform) {
        const key = `${python} ${platform}`;
        if (!this.targets.has(key)) this.targets.set(key, this.readTarget(python, platform));
        return this.targets.get(key);
    }

    readTarget(python, platform) {
        const ran = this.run(["environment", `--python=${python}`, `--platform=${platform}`]);
        if (ran.status === 0) return environmentOf(ran.output);
        const [, about] = ran.output.trimEnd().split("\t");
        throw new Refusal({ refused: ["environment", about], message: withoutPrefix(ran.diagnostics), about });
    }

    // The environment of a file, which the library has to take.
    environmentFile(bytes) {
        this.document(["marker", "'a' == 'a'", "environment.json"], { "environment.json": bytes });
        return environmentOf(new TextDecoder().decode(bytes));
    }
}

// The diagnostics without the name of the program, one line for each.
export const withoutPrefix = (diagnostics) => diagnostics.trimEnd().replaceAll(/^pylock: /gm, "");

function environmentOf(text) {
    const found = JSON.parse(text);
    const variables = new Map();
    for (const name of VARIABLES) {
        if (typeof found.environment[name] === "string") variables.set(name, found.environment[name]);
    }
    return { text, variables, tags: found.tags };
}

// The text of an environment with these variables and tags.
export const environmentText = (variables, tags) => JSON.stringify({ environment: Object.fromEntries(variables), tags });
