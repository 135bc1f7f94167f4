// What pylock.mjs gives. The documents are those of docs/FORMATS.md; members may be added to them.

/** A text, or its bytes in UTF-8. */
export type Text = string | Uint8Array | ArrayBuffer;

/** A Python and a platform, or the text of an environment file. */
export type Environment = { python: string; platform: string } | Text;

export interface Options {
  allExtras?: boolean;
  extras?: readonly string[];
  noDefaultGroups?: boolean;
  allGroups?: boolean;
  groups?: readonly string[];
  noGroups?: readonly string[];
  /** Names, or ":all:". */
  onlyBinary?: readonly string[];
  noBinary?: readonly string[];
  /** Texts of marker variables. */
  set?: Readonly<Record<string, string>>;
  /** Refuses a lock with certain findings of audit. */
  strict?: boolean;
}

export type Kind = "vcs" | "directory" | "editable" | "archive" | "wheel" | "sdist";

/** What is installed of an entry. */
export interface Source {
  id: number;
  kind: Kind;
  name: string;
  version?: string;
  file?: string;
  place?: string;
  url?: string;
  path?: string;
  hashes?: Record<string, string>;
  revision?: { type: string; commit: string };
  subdirectory?: string;
}

/** A source that a lock names, with what the lock says of its file. */
export interface File extends Source {
  size?: number;
  "upload-time"?: string;
}

export interface Fault {
  id: number;
  name?: string;
  code: string;
  detail?: string;
}

/** A plan, or the first fault. */
export interface PlanDocument {
  pylock: 1;
  plan?: Source[];
  fault?: Fault;
}

export interface ExplainDocument {
  pylock: 1;
  head: { verdict: string; detail?: string };
  entries: { id: number; name: string; version?: string; verdict: string; detail?: string }[];
}

export interface FilesDocument {
  pylock: 1;
  files: File[];
}

export interface AuditDocument {
  pylock: 1;
  findings: { id: number; name?: string; finding: string; detail?: string; line?: number; column?: number }[];
  /** How many were left out, if any was. */
  ignored?: number;
}

export interface AuditOptions {
  /** Looks at every environment that the lock is for too. */
  environments?: boolean;
  /** Files of advisories in OSV's format. */
  advisories?: readonly Text[];
  /** Tells each source that names another host than these, if there are any. */
  hosts?: readonly string[];
  /** Findings that are left out: "no-hash" of all packages, "no-hash:NAME" of one. */
  ignore?: readonly string[];
}

/** Where a lock isn't a project's any more, or the fault of the plan. */
export interface CheckDocument {
  pylock: 1;
  differences?: { difference: string; where?: string; name?: string; detail?: string }[];
  fault?: Fault;
}

/** What is to be done in an environment, or the fault of the plan. */
export interface StatusDocument {
  pylock: 1;
  /** Whether nothing is to be done. */
  done?: boolean;
  steps?: { step: "install" | "replace" | "keep" | "remove"; name: string; version?: string; from?: string; id?: number }[];
  fault?: Fault;
}

/** What a lock says of itself, and how many entries have such a source. */
export interface ShowDocument extends Record<Kind, number> {
  pylock: 1;
  "created-by": string;
  "requires-python"?: string;
  environments: string[];
  extras: string[];
  "dependency-groups": string[];
  "default-groups": string[];
  packages: number;
}

export interface DiffDocument {
  pylock: 1;
  changes: { change: string; name?: string; from?: string; to?: string }[];
}

/** The head of a lock, as the library for C gives it. */
export interface HeadDocument {
  extras?: string[];
  "dependency-groups"?: string[];
  "default-groups"?: string[];
  [member: string]: unknown;
}

export interface Ran {
  /** The status of the program. */
  status: number;
  output: string;
  diagnostics: string;
}

/** Why a text, a lock, an environment or a command line is refused, or why there is no answer. */
export class PylockError extends Error {
  /**
   * The first word of the refusal: lock, environment, extra, command, ..; `program` of a command line, `memory` where memory
   * ran out, `unsupported` where WebAssembly has no memory of 64 bits.
   */
  readonly word: string;
  /** All fields of the refusal. */
  readonly fields: readonly string[];
  /** Where the text isn't TOML or JSON, or a part of a lock is wrong: each counts from 1. */
  readonly line?: number;
  readonly column?: number;
  readonly status?: number;
}

/** A lock in an environment, which edit lines change. */
export class Session {
  private constructor();
  /** Makes the edit that an edit line of `pylock select` says, and answers how many judgements that made. */
  edit(line: string | Uint8Array): number;
  plan(): PlanDocument;
  explain(): ExplainDocument;
  /** What `pylock plan` prints. */
  planText(): string;
  /** Frees it. */
  close(): void;
}

/** The program. */
export class Pylock {
  private constructor();
  /** Runs the program: its words without its name, its files by their paths, its standard input. */
  run(words: readonly string[], files?: Readonly<Record<string, Text>>, input?: Text): Ran;
  /** The same, with what it prints as bytes. */
  runBytes(
    words: readonly (string | Uint8Array)[],
    files?: Readonly<Record<string, Text>>,
    input?: Text,
  ): { status: number; output: Uint8Array; diagnostics: Uint8Array };
  plan(lock: Text, environment: Environment, options?: Options): PlanDocument;
  explain(lock: Text, environment: Environment, options?: Options): ExplainDocument;
  /** Every source that a lock names. */
  files(lock: Text): FilesDocument;
  /** What a lock says of itself. */
  show(lock: Text): ShowDocument;
  /** What a careful reader of a lock should know. */
  audit(lock: Text, options?: AuditOptions): AuditDocument;
  /** Where a lock isn't the project's any more whose pyproject.toml is given, by its plan in an environment. */
  check(lock: Text, project: Text, environment: Environment, options?: Options): CheckDocument;
  /**
   * What is to be done so that an environment has the plan. `installed` is what `pip list --format json` or `pip inspect` prints
   * there, or what JSON.parse makes of it; with `exact`, pip, setuptools and wheel go too.
   */
  status(
    lock: Text, environment: Environment, installed: Text | object, options?: Options & { exact?: boolean },
  ): StatusDocument;
  /** What a change of a lock means; in an environment, what it means for the plan there. */
  diff(old: Text, lock: Text, environment?: Environment, options?: Options): DiffDocument;
  /** The head of a lock. */
  head(lock: Text): HeadDocument;
  /** The text of the environment of a target. */
  environment(python: string, platform: string): string;
  /** A session on a lock in an environment. */
  session(lock: Text, environment: Environment): Session;
}

/** Loads the program: from pylock.wasm beside pylock.mjs, or from what is given. */
export function load(source?: WebAssembly.Module | ArrayBuffer | Uint8Array | Response | Promise<Response>): Promise<Pylock>;
