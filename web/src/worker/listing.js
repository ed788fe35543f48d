// Reads the listing of `ngc_list` into typed arrays: the commands, the segments that are drawn, and estimated times. All lengths are
// millimetres, speeds millimetres a second.

import { ARC, DWELL, FEED, OTHER, STOP, TOOL, TRAVERSE } from '../core/motion.js';

const KINDS = { traverse: TRAVERSE, feed: FEED, arc: ARC, dwell: DWELL, tool: TOOL, stop: STOP };
const PLANES = { xy: [0, 1, 2], zx: [2, 0, 1], yz: [1, 2, 0] };
const CHORD = 0.01;            // how far a drawn chord may be from its arc
const MOST = 4_000_000;        // segments that are drawn at most
const MOST_THIN = 60_000;      // segments that a slow renderer draws at most

class Growing {
  constructor(type, size) { this.items = new type(size); this.length = 0; }
  push(...values) {
    if (this.length + values.length > this.items.length) {
      const larger = new this.items.constructor(this.items.length * 2 + values.length);
      larger.set(this.items);
      this.items = larger;
    }
    for (const value of values) this.items[this.length++] = value;
  }
  done() { return this.items.slice(0, this.length); }
}

// Reads the words and whole numbers of a line without making texts of the numbers.
class Words {
  constructor(bytes) { Object.assign(this, { bytes, now: 0, to: 0 }); }
  // Goes to the line that begins at `from`, and returns where the next one begins.
  line(from) {
    this.now = from;
    this.to = this.bytes.indexOf(10, from);
    if (this.to < 0) this.to = this.bytes.length;
    return this.to + 1;
  }
  skip() { while (this.now < this.to && this.bytes[this.now] === 32) this.now++; }
  number() {
    this.skip();
    const { bytes } = this, isBelow = bytes[this.now] === 45;
    let value = 0;
    if (isBelow) this.now++;
    for (; this.now < this.to; this.now++) {
      const digit = bytes[this.now] - 48;
      if (digit < 0 || digit > 9) break;
      value = value * 10 + digit;
    }
    return isBelow ? -value : value;
  }
  word() {
    this.skip();
    const from = this.now;
    while (this.now < this.to && this.bytes[this.now] !== 32) this.now++;
    return String.fromCharCode(...this.bytes.subarray(from, this.now));
  }
  point() { return [this.number() / 1e6, this.number() / 1e6, this.number() / 1e6]; }
}

// How long a motion takes that starts and ends at the speed through corners. An estimate: the proved report has the time of each tool, and
// the estimates are scaled to it.
function durationOf(length, speed, corner, acceleration) {
  if (!(length > 0) || !(speed > 0)) return 0;
  const slow = Math.min(corner, speed), ramp = (speed * speed - slow * slow) / acceleration;
  if (ramp <= length) return (length - ramp) / speed + 2 * (speed - slow) / acceleration;
  return 2 * (Math.sqrt(slow * slow + acceleration * length) - slow) / acceleration;
}

// The points of an arc that are joined by chords, and its length.
function arcPoints(from, to, plane, centre, isClockwise) {
  const [u, v, w] = plane, [cu, cv] = centre;
  const before = Math.hypot(from[u] - cu, from[v] - cv), after = Math.hypot(to[u] - cu, to[v] - cv), begin = Math.atan2(from[v] - cv, from[u] - cu);
  let turn = Math.atan2(to[v] - cv, to[u] - cu) - begin;
  if (isClockwise) { while (turn >= -1e-9) turn -= 2 * Math.PI; } else while (turn <= 1e-9) turn += 2 * Math.PI;
  // Where the arc ends at its start, it is a full circle.
  if (Math.hypot(to[u] - from[u], to[v] - from[v]) < 1e-6) turn = isClockwise ? -2 * Math.PI : 2 * Math.PI;
  const radius = Math.max(before, after, 1e-6);
  const step = Math.min(Math.PI / 8, Math.max(Math.PI / 256, 2 * Math.acos(Math.max(0, 1 - CHORD / radius))));
  const pieces = Math.max(1, Math.min(512, Math.ceil(Math.abs(turn) / step))), points = [];
  for (let piece = 1; piece < pieces; piece++) {
    const part = piece / pieces, angle = begin + turn * part, r = before + (after - before) * part, point = [0, 0, 0];
    point[u] = cu + r * Math.cos(angle);
    point[v] = cv + r * Math.sin(angle);
    point[w] = from[w] + (to[w] - from[w]) * part;
    points.push(point);
  }
  points.push(to);
  return { points, radius, length: Math.hypot(radius * turn, to[w] - from[w]) };
}

class Listing {
  constructor(scene, guess) {
    this.scene = scene;
    this.tips = new Map(scene.tools.map(tool => [tool.number, tool.bottom]));
    for (const [name, type, width] of [['lines', Uint32Array, 1], ['kinds', Uint8Array, 1], ['tools', Uint16Array, 1], ['feeds', Float32Array, 1],
      ['times', Float64Array, 1], ['first', Uint32Array, 1], ['a', Float32Array, 3], ['b', Float32Array, 3], ['owner', Uint32Array, 1]]) {
      this[name] = new Growing(type, guess * width);
    }
    Object.assign(this, { place: [...scene.start], tool: 0, tip: 0, clock: 0, isSorted: true, last: 0, fastest: 0, uses: [], order: [], hasMoved: false });
  }
  draw(from, to) {
    if (this.owner.length >= MOST) return;
    this.a.push(from[0], from[1], from[2] + this.tip);
    this.b.push(to[0], to[1], to[2] + this.tip);
    this.owner.push(this.lines.length);
  }
  // Reads a motion. Returns its feed in mm a minute and its duration in seconds.
  motion(words, kind) {
    const { speeds, corner, accelerations, arcAcceleration } = this.scene.rates, { place } = this;
    const isClockwise = kind === ARC && words.word() === 'cw', plane = kind === ARC ? PLANES[words.word()] : null;
    const centre = kind === ARC ? [words.number() / 1e6, words.number() / 1e6] : null;
    if (kind === ARC) words.word();
    const end = words.point(), moved = end.map((it, axis) => it - place[axis]);
    words.word(); words.number(); words.number(); words.number();
    const isInverse = kind !== TRAVERSE && words.word() === 'inverse', written = kind === TRAVERSE ? 0 : words.number() / 1e6;
    // What the axes allow along the path, where each has its share.
    const along = most => Math.min(...most.map((it, axis) => (moved[axis] ? it * length / Math.abs(moved[axis]) : Infinity)));
    let length = Math.hypot(...moved), speed = along(speeds), acceleration = along(accelerations);
    if (kind === ARC) {
      const arc = arcPoints(place, end, plane, centre, isClockwise);
      let before = place;
      for (const point of arc.points) { this.draw(before, point); before = point; }
      length = arc.length;
      speed = Math.min(Math.sqrt(arcAcceleration * arc.radius), ...speeds);
      acceleration = Math.min(...accelerations.filter((it, axis) => plane.indexOf(axis) < 2 || moved[axis]));
    } else if (length > 0) this.draw(place, end);
    const feed = kind === TRAVERSE ? speed * 60 : isInverse ? written * length : written;
    this.place = end;
    if (!this.order.includes(this.tool)) this.order.push(this.tool);
    if (kind !== TRAVERSE) this.fastest = Math.max(this.fastest, feed);
    return { feed: Number.isFinite(feed) ? feed : 0, duration: durationOf(length, Math.min(speed, feed / 60), corner, acceleration) };
  }
  command(words) {
    words.number();
    const line = words.number(), kind = KINDS[words.word()] ?? OTHER, command = this.lines.length;
    let feed = 0, duration = 0;
    this.first.push(this.owner.length);
    this.isSorted &&= line >= this.last;
    this.last = line;
    if (kind === TOOL) {
      // A use of a tool begins with its change. There is one without a tool before the first change if something moves there.
      if (this.hasMoved || this.tool) this.uses.push({ tool: this.tool, to: command });
      this.tool = words.number();
      this.tip = this.tips.get(this.tool) ?? 0;
    } else if (kind === DWELL) duration = words.number() / 1e6;
    else if (kind <= ARC) {
      ({ feed, duration } = this.motion(words, kind));
      this.hasMoved = true;
    }
    this.clock += duration;
    this.lines.push(line); this.kinds.push(kind); this.tools.push(this.tool); this.feeds.push(feed); this.times.push(this.clock);
  }
  done() {
    const count = this.lines.length;
    this.first.push(this.owner.length);
    this.uses.push({ tool: this.tool, to: count });
    this.uses.forEach((use, at) => { use.from = at ? this.uses[at - 1].to : 0; });
    const path = { count, isSorted: this.isSorted, isCut: this.owner.length >= MOST, fastest: this.fastest, order: this.order, uses: this.uses };
    for (const name of ['lines', 'kinds', 'tools', 'feeds', 'times', 'first', 'a', 'b', 'owner']) path[name] = this[name].done();
    Object.assign(path, marksOf(path));
    return Object.assign(path, { bounds: boundsOf(path), thin: thinned(path) });
  }
}

// What the renderer needs of each segment: four bytes with the tool's place in the order of use, the share of the fastest feed, and
// whether it is a rapid; and when it is run.
function marksOf({ owner, kinds, tools, feeds, order, fastest }) {
  const marks = new Uint8Array(owner.length * 4), runOrder = new Float32Array(owner.length);
  for (let at = 0; at < owner.length; at++) {
    const command = owner[at], isRapid = kinds[command] === TRAVERSE;
    marks[at * 4] = order.indexOf(tools[command]);
    marks[at * 4 + 1] = isRapid ? 0 : Math.round(feeds[command] / (fastest || 1) * 255);
    marks[at * 4 + 2] = isRapid ? 1 : 0;
    runOrder[at] = at;
  }
  return { marks, runOrder };
}

// The corners of what is fed, or of everything if nothing is, and of everything.
function boundsOf({ a, b, marks, owner }) {
  const boxOf = wantsRapids => {
    const low = [Infinity, Infinity, Infinity], high = [-Infinity, -Infinity, -Infinity];
    for (let at = 0; at < owner.length; at++) {
      if (marks[at * 4 + 2] && !wantsRapids) continue;
      for (let axis = 0; axis < 3; axis++) {
        const p = a[at * 3 + axis], q = b[at * 3 + axis];
        if (Math.min(p, q) < low[axis]) low[axis] = Math.min(p, q);
        if (Math.max(p, q) > high[axis]) high[axis] = Math.max(p, q);
      }
    }
    return low[0] === Infinity ? null : { low, high };
  };
  return boxOf(false) ?? boxOf(true);
}

// The path with a few segments in one, for renderers that are slow: segments are joined where each begins at the end of the one before.
function thinned({ a, b, marks, owner }) {
  const step = Math.max(1, Math.ceil(owner.length / MOST_THIN)), count = Math.floor(owner.length / step);
  const ends = new Float32Array(count * 6), endMarks = new Uint8Array(count * 8), order = new Float32Array(count * 2);
  const isJoined = at => marks[at * 4 + 2] === marks[at * 4 - 2] && [0, 1, 2].every(axis => a[at * 3 + axis] === b[at * 3 - 3 + axis]);
  for (let piece = 0; piece < count; piece++) {
    const from = piece * step;
    let to = from;
    while (to + 1 < from + step && isJoined(to + 1)) to++;
    ends.set(a.subarray(from * 3, from * 3 + 3), piece * 6);
    ends.set(b.subarray(to * 3, to * 3 + 3), piece * 6 + 3);
    for (const end of [0, 1]) { endMarks.set(marks.subarray(from * 4, from * 4 + 4), (piece * 2 + end) * 4); order[piece * 2 + end] = from; }
  }
  return { ends, marks: endMarks, order };
}

export function readListing(bytes, scene) {
  const words = new Words(bytes), listing = new Listing(scene, Math.max(16, Math.floor(bytes.length / 60)));
  for (let at = 0; at < bytes.length;) {
    at = words.line(at);
    listing.command(words);
  }
  return listing.done();
}

export const buffersOf = path => [...Object.values(path), ...Object.values(path.thin)].filter(ArrayBuffer.isView).map(it => it.buffer);
