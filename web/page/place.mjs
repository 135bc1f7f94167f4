// Where a refused text is wrong: the library tells the line and the column, or the byte that is no UTF-8.

// {lines, line, column, about} of a refusal, or null where the place isn't known.
export function placeOf(refusal) {
    const lines = new TextDecoder().decode(refusal.bytes).split("\n");
    const byte = /^(?:.*: )?byte (\d+) is not UTF-8 text$/.exec(refusal.message);
    const place = byte ? placeOfByte(refusal.bytes, Number(byte[1])) : refusal;
    if (place.line === undefined) return null;
    const { line, column } = place;
    const about = refusal.entry === undefined ? `Line ${line}, column ${column}` : `Entry ${refusal.entry}, line ${line}, column ${column}`;
    return { lines, line, column, about };
}

function placeOfByte(bytes, at) {
    const before = new TextDecoder().decode(bytes.subarray(0, at)).split("\n");
    return { line: before.length, column: [...before.at(-1)].length + 1 };
}
