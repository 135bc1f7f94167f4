// The command pylock in Node, on any system: node pylock.mjs plan LOCK ENV

import { readFileSync, writeSync } from "node:fs";
import process from "node:process";

// why a file can't be read, in the words of the program, which knows only that it wasn't given
const REASONS = { EISDIR: "a directory", EACCES: "permission" };
// these steer a terminal, or aren't seen there
const UNSEEN = /(?![\t\n])[\p{Cc}\p{Cf}\p{Zl}\p{Zp}]/gu;

// the files that words name, and why those can't be read that are there
function given(words) {
  const [files, reasons] = [{}, {}];
  for (const word of words.flatMap((word) => [word, word.slice(word.indexOf("=") + 1)])) {
    try {
      files[word] = readFileSync(word);
    } catch (error) {
      if (error.code !== "ENOENT") reasons[word] = REASONS[error.code] ?? "can't be read";
    }
  }
  return [files, reasons];
}

function write(stream, bytes) {
  let text = bytes;
  if (stream.isTTY) {
    text = Buffer.from(
      new TextDecoder().decode(bytes).replace(UNSEEN, (character) => `\\u{${character.codePointAt(0).toString(16)}}`),
    );
  }
  for (let done = 0; done < text.length; ) {
    try {
      done += writeSync(stream.fd, text, done);
    } catch (error) {
      if (error.code !== "EAGAIN") throw error;
    }
  }
}

function main(pylock) {
  const words = process.argv.slice(2);
  const [files, reasons] = given(words);
  const asked = (word) => word === "-" || word === "select" || (word.startsWith("--") && word.endsWith("=-"));
  const input = words.some(asked) ? readFileSync(0) : "";
  const { status, output, diagnostics } = pylock.runBytes(words, files, input);
  let told = new TextDecoder().decode(diagnostics);
  for (const [path, why] of Object.entries(reasons)) {
    if (told === `pylock: file: ${path}: no such file\n`) told = `pylock: file: ${path}: ${why}\n`;
  }
  write(process.stderr, Buffer.from(told));
  write(process.stdout, output);
  return status;
}

export function command(pylock) {
  try {
    process.exitCode = main(pylock);
  } catch (error) {
    if (error.code === "EPIPE") process.stderr.write("pylock: write\n");
    else process.stderr.write(`pylock: ${error.word === "memory" ? "memory" : error.message}\n`);
    process.exitCode = 3;
  }
}
