// The report in full: every place that is in the way, the tools, the lowest heights and the meaning of the fault.

import { current, failureOf, isRunning } from '../core/store.js';
import { everyNow, groupNow, keptNow, sceneNow } from '../core/shown.js';
import { causeOf, fixtureName, materialSentence, materialWords, obstacleSentence } from '../core/sentences.js';
import { sentenceOfFailure } from '../core/jobs.js';
import { withRemarks } from '../core/facts.js';
import { AXES } from '../core/systems.js';
import { count, duration, length, plural, rate } from '../core/units.js';
import { fill, h, id, table } from './dom.js';

const MOST = 200;   // places that are listed
export const TOOL_HEADS = ['Tool', 'Cutter', 'Time', 'Feeds', 'Rapids', 'Arcs', 'Nearest fixture'];
export const FIGURE_HEADS = ['Tool', 'Feed', 'Spindle', 'Deepest plunge', 'Holes', 'Time'];
// What the classes of notes say about a program in the language of its control.
const KEPT = { exact: 'the commands are the same', told: 'the motions are the same', chosen: 'controls differ: check yours', bound: 'the path is the same but for this' };
const toolName = use => (use.tool === null ? 'no tool' : `T${use.tool}${use.tool_name ? ` ${use.tool_name}` : ''}`);

const TENTH = 100_000;   // nanometres: how far a tool goes in all is shown to a tenth of a millimetre
const way = (nm, unit) => length(Math.round(nm / TENTH) * TENTH, unit);
// The uses of tools in their order.
export const toolRows = (group, scene, unit) => group.uses.map((use, at) => {
  const tool = scene?.tools.find(it => it.number === use.tool), time = group.useTimes[at];
  return [toolName(use), tool ? `\u00d8 ${length(tool.parts[0].radius * 2e6, unit)}` : '', time ? duration(time.seconds) : '', way(use.feed_way, unit), way(use.traverse_way, unit), count(use.arcs),
    use.nearest_fixture === null ? '' : `${fixtureName(use.nearest_fixture, use.fixture_name)}, ${length(use.distance, unit)}`];
});
// The tool of a lowest height. If another tool's length offset is in force, the height isn't that of the mounted tool's tip.
export const lowestTool = ({ tool, offset_of: other = null }) => `${tool === null ? 'none' : `T${tool}`}${other === null ? '' : `, by the offset of tool ${other}`}`;
// The figures of each tool that feeds: what a machinist compares with the tool's data.
export const figureRows = (group, unit) => group.figures.map(it => {
  const range = (pair, show) => (pair === null ? null : pair[0] === pair[1] ? show(pair[0]) : `${show(pair[0])} to ${show(pair[1])}`);
  const turns = value => count(Math.round(value / 1e6)), feeds = range(it.feeds, nm => rate(nm / 1e6, unit))?.replace(/ (mm|in)\/min to/, ' to');
  const inverse = range(it.inverse_feeds, value => count(value / 1e6)), clockwise = range(it.clockwise, turns), counter = range(it.counterclockwise, turns);
  return [it.tool === null ? 'no tool' : `T${it.tool}`, [feeds, inverse && `${inverse} motions/min`].filter(Boolean).join('; ') || 'none',
    [clockwise && `${clockwise}/min`, counter && `${counter}/min counterclockwise`].filter(Boolean).join('; ') || 'off', it.plunge ? length(it.plunge, unit) : 'none', count(it.holes), duration(it.seconds)];
});

function coordinateList({ command, coordinates }, unit) {
  const { system, origin, tool_length_offset: offset, axis_offset: shift, unit: words, from, to } = coordinates;
  const point = at => at.map((it, axis) => `${AXES[axis]} ${length(it, unit)}`).join(', '), since = line => (line ? `, set in line ${line}` : '');
  const rows = [[`Line ${command.line} in ${system.code}`, `${point(from)} \u2192 ${point(to)}`], [`Zero of ${system.code}`, point(origin.at) + since(origin.line)]];
  if (offset.by) rows.push(['Length offset', length(offset.by, unit) + since(offset.line)]);
  if (shift.by.some(Boolean)) rows.push(['G92', point(shift.by) + since(shift.line)]);
  if (words.name === 'inch') rows.push(['Units', `inches since line ${words.line}`]);
  return h('dl', {}, rows.map(([name, value]) => [h('dt', {}, name), h('dd', {}, value)]));
}

export function makeReport(store, actions) {
  const asked = id('fault-number'), explained = id('explained'), out = id('report');
  const link = (label, onclick) => h('button', { class: 'link', type: 'button', onclick }, label), lineLink = line => link(`line ${line}`, () => actions.goTo(line, 'verdict'));
  const explain = number => { asked.value = String(number); actions.explain(number); };
  id('explain').onsubmit = event => { event.preventDefault(); actions.explain(Number(asked.value)); };

  function placesOf(every, everyValue, isWaiting, failure, unit) {
    if (failure) return [h('p', { class: 'bad' }, `The other places weren't found. ${sentenceOfFailure(failure)}`)];
    if (isWaiting) return [h('h3', {}, 'Looking for every place\u2026')];
    const { commands = [], faults = [] } = every ?? {}, more = everyValue?.isCut || commands.length > MOST ? ': the first ones' : '';
    return [
      commands.length > 1 ? h('h3', {}, `${plural(commands.length, 'place')} in the way${more}`) : null,
      commands.length > 1 ? h('ul', { class: 'places' }, commands.slice(0, MOST).map(it => h('li', {}, it.command.line ? lineLink(it.command.line) : 'start', ` ${obstacleSentence(it, unit, keptNow(store.state)).note}`))) : null,
      faults.length ? h('h3', {}, plural(faults.length, 'fault')) : null,
      faults.length ? h('ul', { class: 'places' }, faults.map(it => h('li', {}, it.line ? lineLink(it.line) : 'no line', ` ${it.reason || `${causeOf(everyValue, it)}.`} `, link(`fault ${it.number}`, () => explain(it.number)), it.isLater ? ' after earlier faults' : ''))) : null,
    ];
  }
  // Of a program in a dialect only the first fault is known.
  function refusalOf({ refusal, fault }) {
    const { line, words, word } = refusal;
    return [h('h3', {}, 'The first fault'), h('ul', { class: 'places' }, h('li', {}, lineLink(line), ` ${words}${word ? `, at ${word}` : ''} `, link(`fault ${fault}`, () => explain(fault))))];
  }
  // What is known about rapids and the block of material, and where it may be touched.
  function materialOf(group, unit) {
    const words = materialWords(group, unit), places = group.material.map(it => materialSentence(it, unit));
    return words ? [h('h3', {}, 'Material'), h('p', {}, `${words} Rapids count no cuts along arcs of G18 and G19.`),
      places.length ? h('ul', { class: 'places' }, places.slice(0, MOST).map(it => h('li', {}, lineLink(it.line), ` ${it.text}`))) : null] : [];
  }
  // What was left out of a program for another control, or which meaning was executed.
  const notesTable = notes => table('Notes about the control', ['Line', 'What', 'How it was executed', 'Kept'],
    notes.map(it => [link(String(it.line), () => actions.goTo(it.line, 'verdict')), `${it.text}${it.count > 1 ? ` (${count(it.count)}\u00d7)` : ''}`, it.remark ?? '', KEPT[it.class] ?? it.class]));
  function lowestTable(group, unit) {
    return table('Lowest', ['System', 'Tool', 'Z', 'Line'], group.lowest.map(it => [it.system, lowestTool(it), length(it.z, unit), link(String(it.line), () => actions.goTo(it.line, 'verdict'))]));
  }
  store.watch(state => [current(state, 'report'), current(state, 'every'), isRunning(state, 'every'), failureOf(state, 'every'), groupNow(state), everyNow(state), sceneNow(state), current(state, 'remarks'), failureOf(state, 'remarks'), state.unit], (report, everyValue, isWaiting, failure, group, every, scene, remarks, remarksFailure, unit) => {
    if (!report) return fill(out, h('p', { class: 'quiet' }, 'Checking\u2026'));
    fill(out,
      group?.commands[0]?.coordinates ? coordinateList(group.commands[0], unit) : null,
      report.refusal ? refusalOf(report) : null,
      placesOf(every, everyValue, isWaiting, failure, unit),
      group ? materialOf(group, unit) : null,
      group?.notes.length ? h('div', { class: 'wide' }, notesTable(withRemarks(group, 'note', remarks))) : null,
      remarksFailure ? h('p', { class: 'bad' }, `What the warnings and notes say in full isn't known. ${sentenceOfFailure(remarksFailure)}`) : null,
      group?.uses.length ? h('div', { class: 'wide' }, table('Tools in the order of use', TOOL_HEADS, toolRows(group, scene, unit))) : null,
      group?.figures.length ? h('div', { class: 'wide' }, table('Figures of each tool', FIGURE_HEADS, figureRows(group, unit))) : null,
      group?.lowest.length ? lowestTable(group, unit) : null,
      unit === 'in' ? h('p', { class: 'quiet' }, 'Inches are rounded to 0.0001. The check itself is exact, in nanometres.') : null);
  });
  store.watch(state => [current(state, 'report')], report => {
    if (report?.explanation) asked.value = String(report.fault);
    explained.textContent = report?.explanation ?? '';
  });
}
