// Questions about a path: which commands a line has, and where the tip is at a time.

// The kinds of commands. Those up to ARC move.
export const TRAVERSE = 0;
export const FEED = 1;
export const ARC = 2;
export const DWELL = 3;
export const TOOL = 4;
export const STOP = 5;
export const OTHER = 6;
export const KIND_NAMES = ['rapid', 'feed', 'arc', 'dwell', 'tool change', 'stop', 'switch'];
export const isMotion = (path, command) => path.kinds[command] <= ARC;

// The first of `count` whose value isn't below `wanted`.
function firstFrom(values, count, wanted) {
  let low = 0, high = count;
  while (low < high) { const middle = (low + high) >> 1; if (values[middle] < wanted) low = middle + 1; else high = middle; }
  return low;
}

const MOST_PASSES = 10_000;   // of a line that is executed again and again
// The commands of each time that a line is executed, from the first to before the last.
export function passesOf(path, line) {
  if (!path || !line) return [];
  const { lines, count } = path, passes = [];
  if (path.isSorted) return [[firstFrom(lines, count, line), firstFrom(lines, count, line + 1)]];
  for (let at = lines.indexOf(line); at >= 0 && passes.length < MOST_PASSES; at = lines.indexOf(line, at)) {
    const from = at;
    while (at < count && lines[at] === line) at++;
    passes.push([from, at]);
  }
  return passes;
}
// Those of the first time.
export const commandsOf = (path, line) => passesOf(path, line)[0] ?? [0, 0];

// The times are estimates. Each use of a tool is scaled so that it takes the time that the proved report has for it.
export function scaledTimes(path, group) {
  if (path.scaledFor === group && path.scaled) return path.scaled;
  const times = new Float64Array(path.count), useTimes = group?.useTimes ?? [], isKnown = useTimes.length === path.uses.length;
  const whole = path.times[path.count - 1], overall = !isKnown && group?.time && whole > 0 ? group.time.seconds / whole : 1;
  let offset = 0, begin = 0;
  path.uses.forEach(({ from, to }, use) => {
    const end = to ? path.times[to - 1] : 0, estimated = end - begin;
    const factor = isKnown && estimated > 0 ? useTimes[use].seconds / estimated : overall;
    for (let at = from; at < to; at++) times[at] = offset + (path.times[at] - begin) * factor;
    if (to > from) offset = times[to - 1];
    begin = end;
  });
  path.scaled = times;
  path.scaledFor = group;
  return times;
}

export const beginOf = (times, command) => (command ? times[command - 1] : 0);
// The time at which a share of a command is done.
export const timeAt = (times, command, share) => beginOf(times, command) + (times[command] - beginOf(times, command)) * share;

// The command that runs at a time, the share of it that is done, and the tip's position.
export function momentAt(path, times, time) {
  const command = Math.min(firstFrom(times, path.count, time), path.count - 1), begin = beginOf(times, command), span = times[command] - begin;
  const share = span > 0 ? Math.min(1, Math.max(0, (time - begin) / span)) : 1;
  return { command, share, ...tipAt(path, command, share) };
}
export function tipAt(path, command, share) {
  const from = path.first[command], to = path.first[command + 1], { a, b } = path;
  if (to > from) {
    const at = Math.min(to - 1, from + Math.floor(share * (to - from))), inside = share * (to - from) - (at - from);
    return { tip: [0, 1, 2].map(axis => a[at * 3 + axis] + (b[at * 3 + axis] - a[at * 3 + axis]) * inside), segment: at + inside };
  }
  // A command that doesn't move is where the last motion ended, or where the first one begins.
  const [ends, at] = from > 0 ? [b, from - 1] : [a, 0];
  return { tip: ends.length ? [0, 1, 2].map(axis => ends[at * 3 + axis]) : [0, 0, 0], segment: from };
}
