// Runs of the module for whoever tries it. `begin` takes what pylock.mjs exports and the module's bytes in base64; `answer` takes
// a run and gives what it left, its bytes in base64 too.

const bytesOf = (text) => Uint8Array.from(atob(text), (character) => character.charCodeAt(0));
function textOf(bytes) {
  let text = "";
  for (let at = 0; at < bytes.length; at += 32768) text += String.fromCharCode(...bytes.subarray(at, at + 32768));
  return btoa(text);
}

// the module with a memory of this many pages at most: its memory section is written anew
function within(module, pages) {
  const number = (value) => {
    const bytes = [];
    do {
      bytes.push((value & 127) | (value > 127 ? 128 : 0));
      value >>>= 7;
    } while (value > 0);
    return bytes;
  };
  let at = 8;
  const read = () => {
    let [value, shift, byte] = [0, 0, 0];
    do {
      byte = module[at++];
      value |= (byte & 127) << shift;
      shift += 7;
    } while (byte > 127);
    return value;
  };
  for (;;) {
    const begin = at;
    const section = module[at++];
    const size = read();
    const end = at + size;
    if (section === 5) {
      read();
      at++;
      const body = [1, 5, ...number(read()), ...number(pages)];
      return Uint8Array.from([...module.subarray(0, begin), 5, ...number(body.length), ...body, ...module.subarray(end)]);
    }
    at = end;
  }
}

function answerOf(pylock, { words, files, input }) {
  try {
    // a path is bytes: one that is no text would not stand among the names of an object
    const decoder = new TextDecoder();
    const given = Object.fromEntries(Object.entries(files).map(([path, data]) => [decoder.decode(bytesOf(path)), bytesOf(data)]));
    const ran = pylock.runBytes(words.map(bytesOf), given, bytesOf(input));
    return { status: ran.status, output: textOf(ran.output), diagnostics: textOf(ran.diagnostics) };
  } catch (error) {
    return { status: 3, output: "", diagnostics: textOf(new TextEncoder().encode(`${error.word ?? error}\n`)) };
  }
}
