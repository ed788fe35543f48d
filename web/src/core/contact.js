// Where the tool first touches what is in the way: for the picture and the player only. The proved report says that it does, and what.

import { ARC, timeAt, tipAt } from './motion.js';

const PIECES = 64;   // straight pieces of an arc that are looked at

// The share of the way from `from` to `to` (tips, mm) at which one of the tool's boxes meets the box, or 1 if none does.
export function firstTouch(from, to, tool, low, high) {
  const parts = tool?.parts.length ? tool.parts : [{ low: 0, high: 0, radius: 0 }], bottom = tool?.bottom ?? 0;
  let least = 1;
  for (const part of parts) {
    let enter = 0, leave = 1;
    for (let axis = 0; axis < 3; axis++) {
      const lowest = axis < 2 ? -part.radius : part.low - bottom, highest = axis < 2 ? part.radius : part.high - bottom;
      const near = low[axis] - highest, far = high[axis] - lowest, distance = to[axis] - from[axis];
      if (Math.abs(distance) < 1e-9) { if (from[axis] <= near || from[axis] >= far) enter = 2; continue; }
      const p = (near - from[axis]) / distance, q = (far - from[axis]) / distance;
      enter = Math.max(enter, Math.min(p, q));
      leave = Math.min(leave, Math.max(p, q));
    }
    if (enter <= leave) least = Math.min(least, enter);
  }
  return least;
}

// The share of the way at which a point leaves the box, or 1 if it doesn't.
export function firstOutside(from, to, low, high) {
  let least = 1;
  for (let axis = 0; axis < 3; axis++) {
    const distance = to[axis] - from[axis], side = distance > 0 ? high[axis] : low[axis];
    const isOut = distance > 0 ? to[axis] > side : distance < 0 && to[axis] < side;
    if (isOut) least = Math.min(least, Math.max(0, (side - from[axis]) / distance));
  }
  return least;
}

// Where the first command that is in the way is refused: the tip there, the share of the command that is done, the command's number if it
// is in the path, and a label. Null if no command is in the way. The report's fixtures have the margin already.
export function contactOf(entry, path, scene, travelMargin) {
  if (!entry || !scene) return null;
  const { command, obstacle } = entry, tool = scene.tools.find(it => it.number === command.tool), bottom = tool?.bottom ?? 0;
  const tipOf = at => [at[0] / 1e6, at[1] / 1e6, at[2] / 1e6 + bottom];
  if (command.fact === 'start') return { tip: tipOf(command.at), share: 1, command: null, label: 'start', tool };
  const { index } = command, isKnown = path !== null && index < path.count && path.lines[index] === command.line;
  const margin = travelMargin / 1e6, lift = axis => (axis === 2 ? bottom : 0);
  const limits = { low: scene.low.map((it, axis) => it + margin + lift(axis)), high: scene.high.map((it, axis) => it - margin + lift(axis)) };
  const pieces = isKnown && path.kinds[index] === ARC ? PIECES : 1;
  for (let piece = 0; piece < pieces; piece++) {
    const from = pieces === 1 ? tipOf(command.from) : tipAt(path, index, piece / pieces).tip, to = pieces === 1 ? tipOf(command.to) : tipAt(path, index, (piece + 1) / pieces).tip;
    const part = obstacle?.kind === 'fixture' ? firstTouch(from, to, tool, obstacle.low.map(it => it / 1e6), obstacle.high.map(it => it / 1e6))
      : obstacle?.kind === 'travel' ? firstOutside(from, to, limits.low, limits.high) : 1;
    if (part === 1 && piece < pieces - 1) continue;
    return { tip: from.map((it, axis) => it + (to[axis] - it) * part), share: (piece + part) / pieces, command: isKnown ? index : null,
      label: `line ${command.line}`, tool, from: tipOf(command.from), to: tipOf(command.to) };
  }
  return null;
}

// The player's time of a contact, or null if the command isn't in the path.
export const timeOfContact = (contact, times) => (contact && contact.command !== null && times?.length ? timeAt(times, contact.command, contact.share) : null);
