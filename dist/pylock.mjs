// pylock: what a pylock.toml installs in an environment, and why, in a browser or in Node.
//
//     import { load } from "./pylock.mjs";
//     const pylock = await load();
//     const plan = pylock.plan(lock, { python: "3.12", platform: "linux" }, { extras: ["science"] });
//
// It is the program pylock, compiled to WebAssembly: `run` takes the words of its command line, and the other calls are commands
// of it whose documents are read. Nothing is judged here. The module needs a memory of 64 bits, which browsers have from
// Chromium 133 and Firefox 134 on, and Node from 24 on. In Node this file is the command too: node pylock.mjs plan LOCK ENV

// a module that has nothing but a memory of 64 bits
const PROBE = new Uint8Array([0, 97, 115, 109, 1, 0, 0, 0, 5, 3, 1, 4, 1]);
const SLOT_BYTES = 16;
// A run gives back all that it took, but a memory never shrinks. So past this many bytes the next run has a new one.
const MOST_MEMORY = 512 << 20;
const OK = 0;
const MEMORY = 1;
// what refuses an edit line, by the codes of pylock.h, in the words of `pylock select`
const EDIT_WORDS = new Map([
  [2, "text"], [80, "long"], [81, "command"], [82, "argument"], [83, "variable"], [84, "extra"], [85, "group"],
  [86, "tag"], [87, "toml"], [88, "entry"], [89, "too-many"], [90, "no-entry"], [91, "name"],
]);

const encoder = new TextEncoder();
const decoder = new TextDecoder();
// what is given as bytes isn't copied: it is read before the call returns
function bytesOf(value) {
  if (typeof value === "string") return encoder.encode(value);
  return value instanceof Uint8Array ? value : new Uint8Array(value);
}

const isText = (value) => typeof value === "string" || value instanceof ArrayBuffer || ArrayBuffer.isView(value);

/** Why a text, a lock, an environment or a command line is refused, or why there is no answer. */
export class PylockError extends Error {
  constructor(message, details = {}) {
    super(message);
    this.name = "PylockError";
    // the first word of the refusal: lock, environment, extra, command, ..; files and words of a command line have `program`
    this.word = details.word;
    // all its fields, as docs/FORMATS.md has them
    this.fields = details.fields ?? [];
    // where the text isn't TOML or JSON, and where a part of a lock is wrong; each counts from 1
    this.line = details.line;
    this.column = details.column;
    this.status = details.status;
  }
}

function refusalOf(document, status) {
  const fields = document.refused.map(String);
  const { line, column } = document;
  // of an option whose text isn't of the lock, `refused` comes before the word
  const word = fields[0] === "refused" ? fields[1] : fields[0];
  return new PylockError(document.message ?? fields.join(" "), { word, fields, line, column, status });
}

/** What can't be done for want of memory. */
const outOfMemory = () => new PylockError("out of memory", { word: "memory", status: 3 });

/** A call's arguments in the memory of the module: what it puts there is freed by `end`. */
class Frame {
  #exports;
  #blocks = [];

  constructor(exports) {
    this.#exports = exports;
  }

  /** The address of this many bytes, all 0. */
  room(size) {
    const at = this.#exports.room(BigInt(size));
    if (at === 0n) throw outOfMemory();
    this.#blocks.push(at);
    new Uint8Array(this.#exports.memory.buffer, Number(at), size).fill(0);
    return at;
  }

  /** The address and the length of a copy of the bytes. */
  bytes(bytes) {
    return this.#copied([bytes], bytes.length);
  }

  /** Texts behind one another, with their lengths in front of them: as four arguments. */
  joined(texts) {
    const lengths = new BigUint64Array(texts.map((text) => BigInt(text.length)));
    const whole = texts.reduce((sum, text) => sum + text.length, 0);
    return [this.bytes(new Uint8Array(lengths.buffer))[0], BigInt(texts.length), ...this.#copied(texts, whole)];
  }

  #copied(texts, whole) {
    const at = this.#exports.room(BigInt(whole));
    if (at === 0n) throw outOfMemory();
    this.#blocks.push(at);
    const place = new Uint8Array(this.#exports.memory.buffer, Number(at), whole);
    let end = 0;
    for (const text of texts) {
      place.set(text, end);
      end += text.length;
    }
    return [at, BigInt(whole)];
  }

  /** An empty slot, whose text is freed with the frame. */
  slot() {
    const at = this.room(SLOT_BYTES);
    this.#blocks.push({ at });
    return at;
  }

  /** The bytes of the text in a slot. */
  text(slot) {
    const length = this.room(8);
    this.#exports.pylock_text_length(slot, length);
    const size = Number(this.#view().getBigUint64(Number(length), true));
    const place = this.room(size);
    this.#exports.pylock_text_copy(slot, place, BigInt(size), length);
    return new Uint8Array(this.#exports.memory.buffer, Number(place), size).slice();
  }

  int32(at) {
    return this.#view().getInt32(Number(at), true);
  }

  uint64(at) {
    return Number(this.#view().getBigUint64(Number(at), true));
  }

  end() {
    for (const block of this.#blocks.reverse()) {
      if (typeof block === "bigint") this.#exports.free_room(block);
      else this.#exports.pylock_text_free(block.at);
    }
    this.#blocks = [];
  }

  // made anew for each use: a memory that grows leaves its old buffer behind
  #view() {
    return new DataView(this.#exports.memory.buffer);
  }
}

function inFrame(exports, work) {
  const frame = new Frame(exports);
  try {
    return work(frame);
  } finally {
    frame.end();
  }
}

/** A lock in an environment, which edit lines change. `close` frees it. */
export class Session {
  #exports;
  #slot;

  constructor(exports, lock, environment) {
    this.#exports = exports;
    this.#slot = exports.room(BigInt(SLOT_BYTES));
    if (this.#slot === 0n) throw outOfMemory();
    new Uint8Array(exports.memory.buffer, Number(this.#slot), SLOT_BYTES).fill(0);
    const words = inFrame(exports, (frame) => {
      const line = frame.slot();
      const code = exports.pylock_session_start(this.#slot, ...frame.bytes(lock), ...frame.bytes(environment), line);
      if (code === OK) return undefined;
      return code === MEMORY ? "memory" : decoder.decode(frame.text(line));
    });
    if (words === undefined) return;
    this.close();
    if (words === "memory") throw outOfMemory();
    const fields = words.trimEnd().split("\t");
    throw new PylockError(fields.join(" "), { word: fields[0], fields, status: 2 });
  }

  /** Makes the edit that an edit line of `pylock select` says, and answers how many judgements that made. */
  edit(line) {
    this.#stand();
    return inFrame(this.#exports, (frame) => {
      const judged = frame.room(8);
      const code = this.#exports.pylock_session_line(this.#slot, ...frame.bytes(bytesOf(line)), judged);
      if (code === MEMORY) throw outOfMemory();
      if (code !== OK) {
        const word = EDIT_WORDS.get(code) ?? "line";
        throw new PylockError(`the edit is refused: ${word}`, { word, fields: [word], status: 1 });
      }
      return frame.uint64(judged);
    });
  }

  /** The document of `plan --json` as it stands. */
  plan() {
    return JSON.parse(this.#shown(this.#exports.pylock_session_answer, true));
  }

  /** The document of `explain --json` as it stands. */
  explain() {
    return JSON.parse(this.#shown(this.#exports.pylock_session_explain, true));
  }

  /** What `plan` prints as it stands. */
  planText() {
    return this.#shown(this.#exports.pylock_session_answer, false);
  }

  close() {
    if (this.#slot === undefined) return;
    this.#exports.pylock_session_free(this.#slot);
    this.#exports.free_room(this.#slot);
    this.#slot = undefined;
  }

  #stand() {
    if (this.#slot === undefined) throw new PylockError("the session is closed", { word: "closed" });
  }

  #shown(show, json) {
    this.#stand();
    return inFrame(this.#exports, (frame) => {
      const out = frame.slot();
      const code = show(this.#slot, json ? 1 : 0, out, frame.room(8));
      if (code !== OK) throw outOfMemory();
      return decoder.decode(frame.text(out));
    });
  }
}

// the words of the options of `plan` and `explain`
function optionWords(options) {
  const words = [];
  const each = (name, values = []) => {
    for (const value of values) words.push(`--${name}=${value}`);
  };
  const flag = (name, asked) => {
    if (asked) words.push(`--${name}`);
  };
  flag("all-extras", options.allExtras);
  each("extra", options.extras);
  flag("no-default-groups", options.noDefaultGroups);
  flag("all-groups", options.allGroups);
  each("group", options.groups);
  each("no-group", options.noGroups);
  each("only-binary", options.onlyBinary);
  each("no-binary", options.noBinary);
  each("set", Object.entries(options.set ?? {}).map(([name, value]) => `${name}=${value}`));
  flag("strict", options.strict);
  return words;
}

const isTarget = (environment) => typeof environment === "object" && "python" in environment;

// an environment as words, and the file that they name
function machine(environment) {
  if (isTarget(environment)) {
    return [[`--python=${environment.python}`, `--platform=${environment.platform}`], {}];
  }
  return [["env.json"], { "env.json": environment }];
}

/** The program. Its calls run at once, and give texts, documents or a PylockError. */
export class Pylock {
  #module;
  #kept;

  constructor(module, instance) {
    this.#module = module;
    this.#kept = instance.exports;
  }

  get #exports() {
    if (this.#kept.memory.buffer.byteLength > MOST_MEMORY) this.#kept = this.#another();
    return this.#kept;
  }

  #another() {
    return new WebAssembly.Instance(this.#module, {}).exports;
  }

  /** Runs the program: its words without its name, its files by their names, its standard input. */
  runBytes(words, files = {}, input = "") {
    const exports = this.#exports;
    return inFrame(exports, (frame) => {
      const parts = Object.entries(files).flatMap(([path, bytes]) => [bytesOf(path), bytesOf(bytes)]);
      const [output, diagnostics, status] = [frame.slot(), frame.slot(), frame.room(8)];
      const code = exports.pylock_main(
        ...frame.joined(["pylock", ...words].map(bytesOf)),
        ...frame.joined(parts),
        ...frame.bytes(bytesOf(input)),
        output,
        diagnostics,
        status,
      );
      if (code !== OK) throw outOfMemory();
      return { status: frame.int32(status), output: frame.text(output), diagnostics: frame.text(diagnostics) };
    });
  }

  /** The same, with what it prints as texts. */
  run(words, files = {}, input = "") {
    const { status, output, diagnostics } = this.runBytes(words, files, input);
    return { status, output: decoder.decode(output), diagnostics: decoder.decode(diagnostics) };
  }

  plan(lock, environment, options = {}) {
    return this.#ofLock("plan", lock, environment, options);
  }

  explain(lock, environment, options = {}) {
    return this.#ofLock("explain", lock, environment, options);
  }

  /** The head of a lock: its extras, its dependency groups and the rest. */
  head(lock) {
    const bytes = bytesOf(lock);
    const exports = this.#exports;
    const line = inFrame(exports, (frame) => {
      const [head, words] = [frame.slot(), frame.slot()];
      const code = exports.pylock_lock_head(...frame.bytes(bytes), head, words);
      if (code === MEMORY) throw outOfMemory();
      return code === OK ? { head: decoder.decode(frame.text(head)) } : { words: decoder.decode(frame.text(words)) };
    });
    if (line.head !== undefined) return JSON.parse(line.head);
    // the program tells more of the refusal
    this.files(lock);
    throw refusalOf({ refused: line.words.trimEnd().split("\t") }, 2);
  }

  /** Every source that a lock names. */
  files(lock) {
    return this.#document(["files", "pylock.toml", "--json"], { "pylock.toml": lock });
  }

  /** What a lock says of itself. */
  show(lock) {
    return this.#document(["show", "pylock.toml", "--json"], { "pylock.toml": lock });
  }

  /**
   * What a careful reader of a lock should know; if asked for, in every environment that it is for too, by files of advisories, and
   * of hosts that are none of these. What is to be ignored is left out.
   */
  audit(lock, { environments = false, advisories = [], hosts = [], ignore = [] } = {}) {
    const files = advisories.map((file, at) => [`advisories-${at + 1}`, file]);
    const words = ["audit", "pylock.toml", "--json"];
    if (environments) words.push("--environments");
    for (const [name] of files) words.push(`--advisories=${name}`);
    for (const host of hosts) words.push(`--host=${host}`);
    for (const finding of ignore) words.push(`--ignore=${finding}`);
    return this.#document(words, { "pylock.toml": lock, ...Object.fromEntries(files) });
  }

  /** Where a lock isn't the project's any more whose pyproject.toml is given, by its plan in an environment. */
  check(lock, project, environment, options = {}) {
    const [place, files] = machine(environment);
    const words = ["check", "pylock.toml", "pyproject.toml", ...place, "--json", ...optionWords(options)];
    return this.#document(words, { "pylock.toml": lock, "pyproject.toml": project, ...files });
  }

  /** What is to be done so that an environment has the plan, by what pip lists there: a text, or what JSON makes of it. */
  status(lock, environment, installed, options = {}) {
    const [place, files] = machine(environment);
    const words = ["status", "pylock.toml", ...place, "--installed=installed.json", "--json", ...optionWords(options)];
    if (options.exact) words.push("--exact");
    const list = isText(installed) ? installed : JSON.stringify(installed);
    return this.#document(words, { "pylock.toml": lock, "installed.json": list, ...files });
  }

  /** What a change of a lock means; in an environment, what it means for the plan there. */
  diff(old, lock, environment, options = {}) {
    const words = ["diff", "old.toml", "new.toml", "--json"];
    const files = { "old.toml": old, "new.toml": lock };
    if (environment === undefined) return this.#document(words, files);
    const [place, more] = machine(environment);
    if (place.length === 1) place.unshift("--in");
    return this.#document([...words, ...place, ...optionWords(options)], { ...files, ...more });
  }

  /** The text of the environment of a target. */
  environment(python, platform) {
    const ran = this.run(["environment", `--python=${python}`, `--platform=${platform}`]);
    if (ran.status !== 0) throw this.#failure(ran);
    return ran.output;
  }

  /** A session on a lock in an environment. */
  session(lock, environment) {
    const text = isTarget(environment) ? this.environment(environment.python, environment.platform) : environment;
    try {
      // its memory goes with it
      return new Session(this.#another(), bytesOf(lock), bytesOf(text));
    } catch (error) {
      // the program tells more of a refusal than a session does
      if (error.word === "lock" || error.word === "environment") this.plan(lock, text);
      throw error;
    }
  }

  #ofLock(command, lock, environment, options) {
    const [place, files] = machine(environment);
    return this.#document([command, "pylock.toml", ...place, "--json", ...optionWords(options)], { "pylock.toml": lock, ...files });
  }

  #document(words, files) {
    const ran = this.run(words, files);
    if (ran.output === "") throw this.#failure(ran);
    const document = JSON.parse(ran.output);
    if (document.refused !== undefined) throw refusalOf(document, ran.status);
    return document;
  }

  #failure({ output, diagnostics, status }) {
    const message = (diagnostics || output).replace(/^(pylock|error): /, "").trimEnd();
    return new PylockError(message, { word: "program", fields: output.trimEnd().split("\t"), status });
  }
}

// the bytes of the module: those that are given, or those of pylock.wasm beside this file
async function moduleOf(source) {
  if (source instanceof WebAssembly.Module) return source;
  if (source instanceof ArrayBuffer || ArrayBuffer.isView(source)) return WebAssembly.compile(source);
  if (source !== undefined) return WebAssembly.compile(await (await source).arrayBuffer());
  const place = new URL("pylock.wasm", import.meta.url);
  if (place.protocol !== "file:") return WebAssembly.compile(await (await fetch(place)).arrayBuffer());
  const { readFile } = await import("node:fs/promises");
  return WebAssembly.compile(await readFile(place));
}

/** Loads the program: from pylock.wasm beside this file, or from bytes, a Response or a module that is given. */
export async function load(source) {
  if (!WebAssembly.validate(PROBE)) {
    throw new PylockError(
      "WebAssembly has no memory of 64 bits here: Chromium 133, Firefox 134 and Node 24 have it",
      { word: "unsupported" },
    );
  }
  const module = await moduleOf(source);
  return new Pylock(module, await WebAssembly.instantiate(module, {}));
}

// run by Node itself, this file is the command
const node = globalThis.process;
if (node?.versions?.node !== undefined && node.argv[1] !== undefined) {
  const { realpathSync } = await import("node:fs");
  const { pathToFileURL } = await import("node:url");
  if (pathToFileURL(realpathSync(node.argv[1])).href === import.meta.url) {
    const { command } = await import("./command.mjs");
    command(await load());
  }
}
