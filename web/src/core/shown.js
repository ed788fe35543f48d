// What the views show of the results that belong to the files in use. Each is computed once for the same results.

import { contactOf } from './contact.js';
import { OWN, dialectOf, looksForeign } from './controls.js';
import { groupAt, groupsOf, keptOf } from './facts.js';
import { sentenceOfFailure } from './jobs.js';
import { scaledTimes } from './motion.js';
import { current, failureOf, isRunning } from './store.js';

// Faults of `ngc draw --map` that aren't the program's.
const NO_MEMORY = 'there is not enough memory for it.';
const NO_PART = { 730: 'the block, or the end of a motion, is more than 2 m from the zero of the machine.', 900: NO_MEMORY, 902: NO_MEMORY };

function remembered(make) {
  let before = null, value = null;
  return (...given) => {
    if (!before || given.some((it, at) => it !== before[at])) { before = given; value = make(...given); }
    return value;
  };
}
const groupsOfReport = remembered(report => (report ? groupsOf(report.facts) : [])), groupsOfEvery = remembered(every => (every ? groupsOf(every.facts) : []));
const contact = remembered(contactOf), keptOfReport = remembered(report => keptOf(report?.facts ?? []));

export const sceneNow = state => current(state, 'scene')?.scene ?? null;
// The language of the program in use, or null for our own: the user's answer, or what the job file or the machine file says.
export const languageNow = state => (state.files.program?.isOwn || state.control === OWN ? null : dialectOf(state.control) ?? sceneNow(state)?.dialect ?? null);
// The corners of the block of material in the machine, or null.
export const stockIn = scene => {
  if (!scene?.stock) return null;
  const { low, high, system } = scene.stock, origin = system ? scene.origins[system] ?? [0, 0, 0] : [0, 0, 0], placed = corner => corner.map((it, axis) => it + origin[axis]);
  return { low: placed(low), high: placed(high) };
};
// Whether the finished part is wanted, and there is a block of material of which it is left.
export const wantsPart = state => state.hasPart && Boolean(sceneNow(state)?.stock);
// What the program leaves of the block at the setting of block delete, if it is wanted, or null.
export const partNow = state => (wantsPart(state) ? current(state, 'part') : null);
// Why there is no finished part, as a sentence, or that it is being made, or an empty text.
export function partSentence(state) {
  if (!wantsPart(state)) return '';
  if (isRunning(state, 'part')) return 'The finished part is being made.';
  const failure = failureOf(state, 'part'), part = current(state, 'part');
  if (failure) return `There is no finished part. ${sentenceOfFailure(failure)}`;
  return part && !part.image ? `There is no finished part: ${NO_PART[part.fault] ?? (part.fault === null ? part.text.trim() : 'the program is refused.')}` : '';
}
export const pathNow = state => current(state, 'path')?.path ?? null;
// The report's groups, one for each setting of block delete that it covers.
export const groupsNow = state => groupsOfReport(current(state, 'report'));
// The margins and the way of rapids of the report.
export const keptNow = state => keptOfReport(current(state, 'report'));
// The group of the report of every place that belongs to the setting, or null.
export const everyNow = state => groupAt(groupsOfEvery(current(state, 'every')), state.blockDelete);
export const everyGroupsNow = state => groupsOfEvery(current(state, 'every'));
// The group of the setting: the report's own, or that of every place if the report stopped before it. Faults are listed for both settings
// together, so then nothing is known about this one.
export const groupNow = state => groupAt(groupsNow(state), state.blockDelete) ?? (current(state, 'report') && !everyNow(state)?.faults.length ? everyNow(state) : null);
export const entryNow = state => { const group = groupNow(state); return group && !group.fits ? group.commands[0] ?? null : null; };
export const contactNow = state => contact(entryNow(state), pathNow(state), sceneNow(state), keptNow(state).travel);
// Whether the page asks for the program's control: it was opened, or there is no answer yet and a program as it was dropped looks like one.
export function asksNow(state) {
  const { program } = state.files;
  if (!program || program.isOwn) return false;
  return state.isAsking || (state.control === null && program.source === 'user' && looksForeign(program, current(state, 'report')));
}
// When each command of the path is done, in seconds: only with the report, since the estimates are scaled to it.
export const timesNow = state => { const path = pathNow(state); return path?.count && current(state, 'report') ? scaledTimes(path, groupNow(state)) : null; };
