// The text of a program as an immutable list of pieces: ranges of lines of the file as it was read, and lines that were edited. An edit
// costs the number of pieces, not the size of the file. Undo keeps the older lists. Lines that weren't edited keep their bytes.

const decoder = new TextDecoder();

const sizeOf = piece => piece.lines?.length ?? piece.count;
const partOf = (piece, from, to) => (piece.lines ? { lines: piece.lines.slice(from, to) } : { from: piece.from + from, count: to - from });

export class ProgramText {
  // `base` is the file as it was read: its bytes, the same as a blob, and where each line starts.
  constructor(base, pieces, lineEnd) {
    Object.assign(this, { base, pieces, lineEnd, offsets: [], count: 0 });
    for (const piece of pieces) { this.offsets.push(this.count); this.count += sizeOf(piece); }
  }
  static of(bytes, blob, starts) {
    // A line feed at the end of the file ends its last line, and begins no other.
    const count = starts.length > 1 && starts[starts.length - 1] === bytes.length ? starts.length - 1 : starts.length;
    return new ProgramText({ bytes, blob, starts }, [{ from: 0, count }], bytes[starts[1] - 2] === 13 ? '\r\n' : '\n');
  }
  // The piece that has a line, counted from 0, and the line's number in the piece.
  find(line) {
    let low = 0, high = this.pieces.length - 1;
    while (low < high) { const middle = (low + high + 1) >> 1; if (this.offsets[middle] <= line) low = middle; else high = middle - 1; }
    return [this.pieces[low], line - this.offsets[low]];
  }
  // Where a line of the file begins and ends, without its line end.
  rangeOf(line) {
    const { bytes, starts } = this.base;
    let to = line + 1 < starts.length ? starts[line + 1] - 1 : bytes.length;
    if (to > starts[line] && bytes[to - 1] === 13) to--;
    return [starts[line], to];
  }
  lengthOf(line) {
    const [piece, at] = this.find(line);
    if (piece.lines) return piece.lines[at].length;
    const [from, to] = this.rangeOf(piece.from + at);
    return to - from;
  }
  // The text of a line, counted from 0: at most `most` bytes of it.
  line(line, most = Infinity) {
    const [piece, at] = this.find(line);
    if (piece.lines) return piece.lines[at].slice(0, most);
    const [from, to] = this.rangeOf(piece.from + at);
    return decoder.decode(this.base.bytes.subarray(from, Math.min(to, from + most)));
  }
  // The text with `deleted` lines from `line` on replaced by these lines.
  splice(line, deleted, lines) {
    const before = [], after = [], end = line + deleted;
    this.pieces.forEach((piece, at) => {
      const begin = this.offsets[at], size = sizeOf(piece);
      if (begin < line) before.push(partOf(piece, 0, Math.min(size, line - begin)));
      if (begin + size > end) after.push(partOf(piece, Math.max(0, end - begin), size));
    });
    const pieces = [];
    for (const piece of [...before, { lines }, ...after]) {
      const last = pieces[pieces.length - 1];
      if (!sizeOf(piece)) continue;
      if (piece.lines && last?.lines && last.lines.length < 500) pieces[pieces.length - 1] = { lines: [...last.lines, ...piece.lines] };
      else pieces.push(piece);
    }
    return new ProgramText(this.base, pieces.length ? pieces : [{ lines: [''] }], this.lineEnd);
  }
  // The text as a blob. Ranges of the file are parts of its blob, so nothing is copied here.
  blob() {
    const { bytes, blob, starts } = this.base, parts = [];
    const isWhole = this.pieces.length === 1 && this.pieces[0].from === 0 && this.pieces[0].count >= starts.length - 1;
    if (isWhole) return blob;
    for (const piece of this.pieces) {
      if (piece.lines) { parts.push(piece.lines.map(line => line + this.lineEnd).join('')); continue; }
      const last = piece.from + piece.count, to = last < starts.length ? starts[last] : bytes.length;
      parts.push(blob.slice(starts[piece.from], to));
      if (to > 0 && bytes[to - 1] !== 10) parts.push(this.lineEnd);
    }
    return new Blob(parts);
  }
}

// Where the lines of a short text start. The worker finds those of a long one.
export function startsOf(bytes) {
  const starts = [0];
  for (let at = bytes.indexOf(10); at >= 0; at = bytes.indexOf(10, at + 1)) starts.push(at + 1);
  return Uint32Array.from(starts);
}
