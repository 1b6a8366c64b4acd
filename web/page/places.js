// Places in a text: a line and a column as the module counts them (from 1; columns count bytes), and indices as a field counts them.

const bytesOf = (text) => new TextEncoder().encode(text);

export function indexAt(text, line, column) {
  let from = 0;
  for (let i = 1; i < line; i++) {
    const end = text.indexOf("\n", from);
    if (end < 0) return text.length;
    from = end + 1;
  }
  const end = text.indexOf("\n", from), row = text.slice(from, end < 0 ? text.length : end);
  return from + new TextDecoder("utf-8", { ignoreBOM: true }).decode(bytesOf(row).slice(0, column - 1)).length;
}

export function placeAt(text, index) {
  const before = text.slice(0, index), line = before.split("\n").length;
  return { line, column: bytesOf(before.slice(before.lastIndexOf("\n") + 1)).length + 1 };
}

export const placeWords = ({ line, column }) => `${line}:${column}`;

// The end of the lexeme that begins at an index.
export function lexemeEnd(text, index) {
  const sticky = /\w+|:=|<>|<=|>=|[^\n]/uy;
  sticky.lastIndex = index;
  return index + (sticky.exec(text)?.[0].length ?? 1);
}

// The lexeme that begins at a line and a column.
export function lexemeAt(text, line, column) {
  const from = indexAt(text, line, column);
  return { line, column, from, to: lexemeEnd(text, from) };
}
