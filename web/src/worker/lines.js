// Where the lines of a program start, and what a search finds.

export function lineStarts(bytes) {
  let starts = new Uint32Array(Math.max(1024, bytes.length >> 3)), count = 1;
  for (let at = bytes.indexOf(10); at >= 0; at = bytes.indexOf(10, at + 1)) {
    if (count === starts.length) { const more = new Uint32Array(count * 2); more.set(starts); starts = more; }
    starts[count++] = at + 1;
  }
  return starts.slice(0, count);
}

// The lines that have `query` in them, without regard to case: at most `most` of them, and how often it is found.
export function search(bytes, query, most = 10_000) {
  const latin = new TextDecoder('latin1'), text = latin.decode(bytes).toLowerCase();
  const wanted = latin.decode(new TextEncoder().encode(query)).toLowerCase();
  const lines = [];
  let count = 0, line = 1, feed = text.indexOf('\n');
  for (let at = text.indexOf(wanted); at >= 0; at = text.indexOf(wanted, at + wanted.length)) {
    for (; feed >= 0 && feed < at; feed = text.indexOf('\n', feed + 1)) line++;
    if (lines[lines.length - 1] !== line && lines.length < most) lines.push(line);
    count++;
  }
  return { lines: Uint32Array.from(lines), count };
}
