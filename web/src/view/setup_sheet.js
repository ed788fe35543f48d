// The setup sheet: one printed page with the verdict, the picture, the zeros, the tools, the fixtures and the warnings.

import { current } from '../core/store.js';
import { groupNow, pathNow, sceneNow } from '../core/shown.js';
import { withRemarks } from '../core/facts.js';
import { materialSentence, verdictOf } from '../core/sentences.js';
import { duration, inUnit, plural } from '../core/units.js';
import { fill, h, id, table } from './dom.js';
import { FIGURE_HEADS, TOOL_HEADS, figureRows, lowestTool, toolRows } from './report.js';

// What fits on one page.
const MOST = { fixtures: 8, tools: 7, uses: 7, figures: 7, lowest: 4, warnings: 4 };

// The first rows of a table, and how many there are more.
function firstRows(caption, heads, rows, most) {
  if (!rows.length) return null;
  return table(rows.length > most ? `${caption}: the first ${most} of ${rows.length}` : caption, heads, rows.slice(0, most));
}

export function makeSetupSheet(store, picture) {
  const out = id('sheet'), at = mm => inUnit(Math.round(mm * 1e4) / 1e4, store.state.unit);
  const span = (it, axis) => `${at(it.low[axis])} to ${at(it.high[axis])}`;
  function head({ files, text }) {
    const isExample = files.machine.source === 'example' || files.tools.source === 'example';
    return h('header', {}, h('h1', {}, files.program.name), h('p', {}, `${text ? plural(text.count, 'line') : ''} \u00b7 ${files.machine.name} \u00b7 ${files.tools.name} \u00b7 ${new Date().toLocaleDateString('sv')}`),
      isExample ? h('p', { class: 'loud' }, 'EXAMPLE MACHINE OR TOOLS: not for a real job') : null);
  }
  function columns(group, scene, unit) {
    const systems = [...new Set([...(group?.lowest ?? []).map(it => it.system), group?.commands[0]?.coordinates?.system.code].filter(Boolean))];
    return h('div', { class: 'columns' },
      h('div', {},
        firstRows(`Zero, ${unit}`, ['System', 'X', 'Y', 'Z'], systems.map(it => [it, ...(scene.origins[it] ?? [0, 0, 0]).map(at)]), MOST.lowest),
        firstRows(`Travel, ${unit}`, ['Axis', 'From', 'To', 'Left below', 'Left above'], (group?.extents ?? []).map(it => [it.axis, at(it.low / 1e6), at(it.high / 1e6), at(it.left_below / 1e6), at(it.left_above / 1e6)]), 3),
        firstRows(`Lowest, ${unit}`, ['System', 'Tool', 'Z', 'Line'], (group?.lowest ?? []).map(it => [it.system, lowestTool(it), at(it.z / 1e6), String(it.line)]), MOST.lowest)),
      h('div', {}, firstRows(`Fixtures, ${unit}, machine coordinates`, ['Fixture', 'X', 'Y', 'Top Z'], scene.fixtures.map(it => [it.name || `fixture ${it.number}`, span(it, 0), span(it, 1), at(it.high[2])]), MOST.fixtures),
        scene.stock ? table(`Material, ${unit}, ${scene.stock.system ?? 'machine coordinates'}`, ['X', 'Y', 'Z'], [[0, 1, 2].map(axis => span(scene.stock, axis))]) : null));
  }
  function build() {
    const { state } = store, report = current(state, 'report'), scene = sceneNow(state), group = groupNow(state), { unit, blockDelete } = state;
    if (!report) return fill(out, h('p', {}, 'The program is still being checked: there is no setup sheet yet.'));
    const verdict = verdictOf(report, group, scene, unit), used = pathNow(state)?.order.filter(Boolean) ?? [];
    const warnings = [...withRemarks(group, 'warning', current(state, 'remarks')).map(it => ({ ...it, text: it.words })), ...(group?.material ?? []).map(it => materialSentence(it, unit))];
    const tools = (scene?.tools ?? []).filter(it => !used.length || used.includes(it.number));
    fill(out, head(state),
      h('p', { class: `verdict ${verdict.kind}` }, verdict.title, group && group.blockDelete !== null ? ` (block delete ${blockDelete ? 'on' : 'off'})` : ''),
      picture ? h('img', { src: picture.image('light'), alt: 'The program on the machine' }) : null,
      scene ? columns(group, scene, unit) : null,
      firstRows(`Tools to set up, ${unit}`, ['Tool', 'Name', 'Cutter', 'Reach below the nose', 'Length offset'], tools.map(it => [`T${it.number}`, it.name, `\u00d8 ${at(it.parts[0].radius * 2)} ${it.cutter}`.trim(), at(-it.bottom), at(it.offset)]), MOST.tools),
      group ? firstRows('Tools in the order of use', TOOL_HEADS, toolRows(group, scene, unit), MOST.uses) : null,
      group ? firstRows('Figures of each tool', FIGURE_HEADS, figureRows(group, unit), MOST.figures) : null,
      warnings.length ? h('ul', {}, warnings.slice(0, MOST.warnings).map(it => h('li', {}, `Warning: ${it.text}${it.line ? `, line ${it.line}` : ''}`)), warnings.length > MOST.warnings ? h('li', {}, `${warnings.length - MOST.warnings} more warnings`) : null) : null,
      h('footer', {}, `${group?.time ? `Run time ${duration(group.time.seconds)}. ` : ''}Checked by ngc: travel, fixtures and tool holders as the machine file and the tool table describe them. ${group?.materialMargin !== null && group?.materialMargin !== undefined ? 'Of the workpiece only rapids, tool changes, the depth of feeds, and shanks and holders on straight feeds are tested.' : "The workpiece isn't checked."}`));
  }
  window.addEventListener('beforeprint', build);
  return { build, print() { build(); window.print(); } };
}
