// The verdict as a sentence. Every number is one of the proved report; this file only chooses the words.

import { CONTROLS } from './controls.js';
import { keptOf } from './facts.js';
import { AXES } from './systems.js';
import { atLeast, duration, enough, length, plural } from './units.js';

const FREE_RAPIDS = ' Rapids may take any way within the box of their ends.';
const direction = (axis, isPlus) => `${AXES[axis]}${isPlus ? '+' : '\u2212'}`;
const capital = text => text.slice(0, 1).toUpperCase() + text.slice(1);
// A sentence in the middle of another one: only a plain word loses its capital.
const small = text => (/^[A-Z][a-z]/.test(text) || /^A /.test(text) ? text[0].toLowerCase() + text.slice(1) : text);
export const fixtureName = (number, name) => (name ? `the ${name.replace(/^the /, '')}` : `fixture ${number}`);
const toolName = (number, name) => (number === null || number === undefined ? 'no tool' : name ? `tool ${number} (${name})` : `tool ${number}`);

const READING = ['Reading a line', 'Reading a file'], OTHER_CONTROLS = 'Programs for other controls';
// What is done here for a command or an option.
const HERE = [['name the table with --tools', 'drop its table here'], ['with ngc certify, and name it with --certificate', 'by Save, Certificate'], ['with ngc certify', 'by Save, Certificate']];
// Without the marks of code, and without saying which rules are our own.
function plain(text) {
  const words = text.replace(/`/g, '').replace(/\s+/g, ' ').replace(/ \([^()]*\bour own\b[^()]*\)/g, '').trim();
  return HERE.reduce((said, [before, after]) => said.replace(before, after), words);
}
// The rows of an explanation, each with its section and its meaning, without its examples.
const rowsOf = explanation => explanation.split(/^(?=Fault \d+ \()/m).map(row => ({ section: /^Fault \d+ \((.*)\)/.exec(row)?.[1] ?? '', meaning: plain(row.split('\n\n')[1] ?? '') }));
// The first sentence of a meaning, as what is wrong and what to do: `No feed is set yet: write F ..`
function causeAndRemedy(meaning) {
  const [, cause, remedy = '', rest = ''] = /^([^:.]*)(?:: ([^.]*(?:\.\d[^.]*)*))?\.?\s*(.*)$/.exec(meaning) ?? ['', meaning];
  return { cause, remedy: remedy && `${capital(remedy)}.`, rest };
}
const distinct = (parts, name) => parts.filter((it, at) => parts.findIndex(other => other[name] === it[name]) === at);
// What a fault says is wrong, and what to do. A number with several rows may be any of those that belong to what was done with the program.
export function meaningOf(explanation, { isUnreadable = false, dialect = null } = {}) {
  const rows = rowsOf(explanation), isOther = it => it.section === OTHER_CONTROLS, isReading = it => READING.includes(it.section);
  const rules = [dialect ? isOther : it => !isOther(it) && isReading(it) === isUnreadable, it => !isReading(it), () => true];
  const meant = rules.map(rule => rows.filter(rule)).find(it => it.length) ?? [], parts = meant.map(it => causeAndRemedy(it.meaning));
  const causes = distinct(parts, 'cause').map(({ cause }, at) => (at ? small(cause) : cause));
  const remedies = distinct(parts, 'remedy').map(({ remedy, rest }, at) => `${at ? `Or: ${small(remedy)}` : remedy} ${rest}`.trim());
  return { cause: causes.join(', or '), remedy: remedies.join(' ') };
}

// The ways out of a fixture: up first, since that is what a machinist does, then the shortest ways aside.
function waysOut(clear, unit) {
  const aside = [0, 1].flatMap(axis => [{ toward: direction(axis, true), distance: clear.plus[axis] }, { toward: direction(axis, false), distance: clear.minus[axis] }]);
  const least = Math.min(...aside.map(it => it.distance));
  const nearest = aside.filter(it => it.distance === least).slice(0, 2).map(it => it.toward).join(' or ');
  return { up: enough(clear.plus[2], unit), aside: `${enough(least, unit)} toward ${nearest}` };
}

function fixtureSentence(who, isChange, { command, obstacle, clear, marginMissing, anyWay }, unit, kept) {
  const name = fixtureName(obstacle.fixture, obstacle.fixture_name), margin = kept.fixtures ? length(kept.fixtures, unit) : '';
  const inMargin = `is within the margin of ${margin} around ${name}`;
  if (!clear) { const what = margin ? inMargin : `is inside ${name}`; return { title: `${who} ${what}.`, note: what, detail: 'Move the start point in the machine file, or the fixture.' }; }
  // The fixture itself is clear if the margin alone is in the way.
  const what = `${marginMissing ? inMargin : `${anyWay ? 'may hit' : 'hits'} ${name}`}`, { up, aside } = waysOut(clear, unit);
  const remedy = obstacle.over_from_z === null ? `nothing passes over it within the travel, so move it ${aside}`
    : isChange ? `change the tool ${up} higher, or ${aside}` : `raise it by ${up}, or move it ${aside}`;
  const met = marginMissing ? 'the margin' : 'it', meets = anyWay ? `may meet ${met}: first retract, then move.` : `meets ${met} on the way.`;
  return { title: `${who} ${what}: ${margin && !marginMissing ? `to keep the margin of ${margin}, ` : ''}${remedy}.`, note: `${what}: raise by ${up}`,
    detail: `${capital(toolName(command.tool, command.tool_name))} ${meets} The distances clear this obstacle only; the check runs again as you edit.` };
}

function travelSentence(who, { obstacle, clear }, unit, kept) {
  const side = direction(AXES.indexOf(obstacle.axis), obstacle.side === 'above'), beyond = enough(Math.abs(obstacle.left), unit);
  const travel = kept.travel ? `the travel, with its margin of ${length(kept.travel, unit)},` : 'the travel', note = `leaves ${travel} at ${side} by ${beyond}`;
  if (!clear) return { title: `${who} is outside ${travel.replace(/,$/, '')}: at ${side} by ${beyond}.`, note, detail: 'Move the start point in the machine file.' };
  const remedy = clear.distance === null ? 'it is too long for the travel' : `move it ${enough(clear.distance, unit)} toward ${clear.direction.replace('-', '\u2212')}`;
  return { title: `${who} ${note}: ${remedy}.`, note, detail: '' };
}

// Whether the whole motion is judged, and a part of it may be clear: too close to tell, or a slanted one whose box meets a fixture.
export const moreCutsMayHelp = ({ command, obstacle }) => command.fact === 'command'
  && (!['fixture', 'travel'].includes(obstacle?.kind) || (obstacle.kind === 'fixture' && command.from.filter((it, axis) => it !== command.to[axis]).length > 1));

// What is in the way of one command: the sentence, the short note beside the line, and a detail.
export function obstacleSentence(entry, unit, kept) {
  const { command, obstacle } = entry;
  // A tool change is a command that doesn't move.
  const isChange = command.fact === 'command' && command.from.every((it, axis) => it === command.to[axis]);
  const who = command.fact === 'start' ? 'The start point' : isChange ? `The tool change in line ${command.line}` : `Line ${command.line}`;
  if (obstacle?.kind === 'fixture') return fixtureSentence(who, isChange, entry, unit, kept);
  if (obstacle?.kind === 'travel') return travelSentence(who, entry, unit, kept);
  return { title: `${who} is too close to tell.`, note: 'too close to tell',
    detail: 'Nothing is in the way of the whole motion, but a box of the certificate is too large. More cuts for each motion may clear it.' };
}

const REFUSED_FILES = { machine: 'machine file', tools: 'tool table', job: 'job file' };
function refusedFileSentence(report) {
  const name = REFUSED_FILES[report.refusedFile];
  // What is wrong with a job file is said in lines of standard error.
  if (report.refusedFile === 'job') return { kind: 'bad', title: `The ${name} can't be used. ${report.sentence.split('\n')[0].replace(/^error: /, '').replace(/[^.?!]$/, '$&.')}`, detail: report.sentence.split('\n').slice(1).filter(it => !/^ngc: fault |--help/.test(it)).join(' ').trim() };
  const [sentence = '', ...rest] = report.sentence.trim().split('\n').filter(it => !it.startsWith('`ngc explain'));
  return { kind: 'bad', title: `The ${name} can't be used. ${plain(sentence) || `${meaningOf(report.explanation).cause}.`}`, detail: rest.join(' ').trim() };
}

function refusedSentence(report, group) {
  const { cause, remedy } = meaningOf(report.explanation, group), reason = group.reason?.text;
  const what = group.isUnreadable ? "can't be read" : 'is refused';
  // A cause that is about the whole program is a sentence already.
  if (/^The program /.test(cause) && !reason) return { kind: 'bad', line: group.line?.number, note: `${cause}.`, title: `${cause}.`, detail: remedy };
  if (!group.line) return { kind: 'bad', title: `The program ${what}: ${small(reason ?? `${cause}.`)}`, detail: remedy };
  // A reason says which word is wrong.
  return { kind: 'bad', line: group.line.number, column: group.mark?.column, title: `Line ${group.line.number} ${what}: ${small(reason ?? `${cause}.`)}`, note: reason ?? `${cause}.`, detail: remedy };
}

// A program in a dialect that is refused has one line with what is wrong, as `cutter compensation: not supported`.
function refusalSentence({ refusal, dialect, explanation }) {
  const { setting, line, column, word } = refusal, words = refusal.words.replace(/^(the|this) dialect has/, `${CONTROLS[dialect]} has`).replace(/^(.*): not supported$/, "ngc doesn't support $1");
  const where = column ? `can't be read at column ${column}` : `is refused${word ? ` at ${word}` : ''}`, when = setting === 'on' ? ' with block delete on' : '';
  return { kind: 'bad', line, column, note: word ? `${word}: ${words}` : words, title: `Line ${line} ${where}${when}: ${words}.`, detail: meaningOf(explanation, { dialect }).remedy };
}

export const isRapid = ({ kind }) => kind === 'traverse';
export const isHolder = ({ kind }) => kind === 'holder';
// What the report says about a rapid that may go through material that no feed before it has removed, or surely does, about a feed whose shank or holder
// may touch what it leaves, about a tool change below the top of the block, or about feeds below its bottom: the words of its card, and
// the note beside its line. Part 0 of a tool is its cutter.
export function materialSentence({ kind, certain, tool, part, depth, at, line, first, last }, unit) {
  const most = enough(depth, unit), who = part ? `the shank or holder of ${toolName(tool)}` : toolName(tool);
  if (kind === 'change') return { line, text: `the tool is changed below the top of the material: ${toolName(tool)} is ${length(depth, unit)} below it at X ${length(at[0], unit)}, Y ${length(at[1], unit)}`, note: `tool change ${length(depth, unit)} below the top of the material` };
  if (kind === 'bottom') {
    const others = first === last ? '' : `; the first such feed is in line ${first}, the last in line ${last}`;
    return { line, text: `the feed goes below the bottom of the material: ${toolName(tool)} is at most ${most} below it${others}`, note: `feed at most ${most} below the bottom of the material` };
  }
  const motion = kind === 'holder' ? 'feed' : 'rapid', upper = part ? ' with the shank or holder' : '';
  const [does, deep] = certain ? ['goes through', `at least ${atLeast(depth, unit)}`] : ['may touch', `at most ${most}`];
  return { line, text: `the ${motion} ${does} material: ${who} is ${deep} deep at X ${length(at[0], unit)}, Y ${length(at[1], unit)}`, note: `${motion} ${does} material${upper}, ${deep} deep` };
}
const ROUND = 10_000;   // nanometres: the margin of the test is shown to a hundredth of a millimetre, rounded up
// What is known about rapids and the block of material of the machine file.
export function materialWords({ material, untestedTools, materialMargin, isMaterialFar }, unit) {
  if (isMaterialFar) return "Rapids weren't tested against the material: it, or a motion, is more than 2 m from the machine's zero.";
  if (materialMargin === null) return '';
  const less = `tested with each tool ${enough(Math.ceil(materialMargin / ROUND) * ROUND, unit)} smaller in radius and a little higher`, thin = untestedTools.map(it => it.tool);
  const rapids = material.filter(isRapid).length, found = rapids ? `${plural(rapids, 'rapid')} may touch material, ${less}.` : `No rapid touches material that the feeds before it have left, ${less}.`;
  const feeds = material.filter(isHolder).length, rubbing = feeds ? ` With a shank or a holder ${plural(feeds, 'feed')} may touch what the feeds have left.` : '';
  return `${found}${rubbing}${thin.length ? ` Too thin to be tested: tool ${thin.join(', ')}.` : ''}`;
}

// The side of the travel with the least left, without the sides where the machine starts: there nothing is left by definition.
function tightest(group, scene) {
  let least = null;
  group.extents.forEach((extent, axis) => {
    const start = (scene?.start[axis] ?? NaN) * 1e6;
    for (const [left, isPlus, end] of [[extent.left_below, false, extent.low], [extent.left_above, true, extent.high]]) {
      if (end !== start && (!least || left < least.left)) least = { left, toward: direction(axis, isPlus) };
    }
  });
  return least;
}

// What is kept besides fitting: `, 2 mm clear of every fixture and 1 mm inside the travel`.
function marginWords(kept, hasFixtures, unit) {
  const parts = [hasFixtures && kept.fixtures && `${length(kept.fixtures, unit)} clear of every fixture`, kept.travel && `${length(kept.travel, unit)} inside the travel`].filter(Boolean);
  return parts.length ? `, ${parts.join(' and ')}` : '';
}

function fitSentence(group, scene, unit, kept) {
  const near = group.uses.filter(use => use.nearest_fixture !== null).sort((p, q) => p.distance - q.distance)[0];
  const least = tightest(group, scene), { verdict } = group, isNose = verdict.tested === 'nose';
  const isTouching = near?.distance === 0 && !kept.fixtures;
  // The report counts what is left from the margins on.
  const parts = [least && `${atLeast(least.left, unit)} ${kept.travel ? 'more' : 'left'} toward ${least.toward}`,
    near && `${atLeast(near.distance, unit)} ${kept.fixtures ? 'more ' : ''}from ${fixtureName(near.nearest_fixture, near.fixture_name)}`, group.time && duration(group.time.seconds)].filter(Boolean);
  const motions = `${verdict.motions} motion${verdict.motions === 1 ? '' : 's'}`;
  const detail = [isNose ? `Without a tool only the spindle nose was tested, in ${motions} of lines ${verdict.first} to ${verdict.last}: mount a tool with M6.`
    : group.hasNoFixtures ? 'The machine file describes no fixtures: only the travel was checked.'
      : 'Every position is inside the travel and clear of every fixture, whatever the timing.', isTouching && `Nothing is left to ${fixtureName(near.nearest_fixture, near.fixture_name)}: to keep a distance, give a margin in the tab Machine.`, materialWords(group, unit)].filter(Boolean).join(' ');
  const fits = `Fits${marginWords(kept, !group.hasNoFixtures, unit)}`;
  return { kind: 'good', isCareful: isNose || isTouching, title: parts.length ? `${fits}: ${parts.join(', ')}.` : `${fits}.`, detail: `${detail}${kept.hasFreeRapids ? FREE_RAPIDS : ''}` };
}

function verdictOfProgram(report, group, scene, unit) {
  if (report.refusal) return refusalSentence(report);
  if (!report.facts.length) {
    const { cause, remedy } = meaningOf(report.explanation, report);
    return { kind: 'bad', title: cause ? `${cause}.` : 'There is no verdict.', detail: remedy || report.errors };
  }
  if (!group) return { kind: 'bad', title: "Whether it fits at this setting of block delete isn't known yet.", detail: 'Correct the other setting first.' };
  const kept = keptOf(report.facts);
  if (group.fits) return fitSentence(group, scene, unit, kept);
  if (!group.commands.length) return refusedSentence(report, group);
  const { title, note, detail } = obstacleSentence(group.commands[0], unit, kept);
  const origin = group.noOrigin ? `The machine file has no origin of ${group.noOrigin}: set one there, or try one under Zero. ` : '';
  return { kind: 'bad', line: group.commands[0].command.line ?? 0, title, note, detail: `${origin}${detail}${kept.hasFreeRapids ? FREE_RAPIDS : ''}` };
}

// What is wrong, for a fault of a report of every place. A fault that can't be read has the column of a mark.
export const causeOf = (every, { number, isUnreadable }) => meaningOf(every?.meanings[number] ?? '', { isUnreadable }).cause || `fault ${number}`;
// Why a certificate is refused.
export function certificateSentence({ name }, { fault, explanation }) {
  const { cause, remedy } = meaningOf(explanation);
  return `The certificate ${name} is refused: ${small(cause.replace(/^The certificate /, 'it '))} (fault ${fault}). ${remedy}`;
}

// Returns { kind, title, detail, line, column, note, isCareful }. `kind` is 'good' or 'bad'. The title says whose language was read.
export function verdictOf(report, group, scene, unit) {
  if (report.lack) return { kind: 'bad', title: report.lack, detail: 'Until then nothing is checked.' };
  if (report.refusedFile) return refusedFileSentence(report);
  const verdict = verdictOfProgram(report, group, scene, unit);
  return report.dialect ? { ...verdict, title: `${verdict.title} Read as ${CONTROLS[report.dialect]}.` } : verdict;
}
