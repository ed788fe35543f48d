// The machine and the tools as the checker read them, clamps that are added to them, and a machine file from figures.

import { MOST_MARGIN, NO_DEMANDS, hasDemands, isMargin } from '../core/changes.js';
import { current, failureOf } from '../core/store.js';
import { sentenceOfFailure } from '../core/jobs.js';
import { AXES, SYSTEMS } from '../core/systems.js';
import { inUnit, typedLength } from '../core/units.js';
import { fill, h, id, table } from './dom.js';

const MOST_TOOL = 9999;
const listOf = text => text.trim().split(/[\s,;x\u00d7]+/).filter(Boolean);

// The margins and the way of rapids of this check. An empty field leaves what the machine file says.
function watchDemands(store, actions) {
  const form = id('demands'), { margin, travel, rapids } = form.elements, reset = id('demands-reset');
  const shown = (nm, unit) => (nm === null ? '' : inUnit(nm / 1e6, unit));
  // What wasn't typed again is kept exactly, also where inches round it.
  const typed = (field, before) => { const { unit } = store.state; return field.value === shown(before, unit) ? before : field.value.trim() ? typedLength(field.value, unit) : null; };
  form.onsubmit = event => {
    event.preventDefault();
    const { demands } = store.state, fixtures = typed(margin, demands.margin), ends = typed(travel, demands.travelMargin);
    if (![fixtures, ends].every(it => it === null || isMargin(it))) return actions.notice(`A margin is from 0 to ${inUnit(MOST_MARGIN / 1e6, store.state.unit)} ${store.state.unit}.`, 'bad');
    actions.setDemands({ margin: fixtures, travelMargin: ends, rapids: rapids.value || null });
  };
  reset.onclick = () => actions.setDemands(NO_DEMANDS);
  store.watch(state => [state.demands, state.unit], (demands, unit) => {
    margin.value = shown(demands.margin, unit);
    travel.value = shown(demands.travelMargin, unit);
    rapids.value = demands.rapids ?? '';
    reset.hidden = !hasDemands(demands);
  });
}

export function makeMachine(store, actions) {
  const out = id('shop');
  store.watch(state => [current(state, 'scene'), failureOf(state, 'scene'), state.unit], (value, failure, unit) => {
    const scene = value?.scene, at = mm => inUnit(mm, unit);
    if (failure) return fill(out, h('p', { class: 'bad' }, `The machine file can't be shown. ${sentenceOfFailure(failure)}`));
    if (!scene) return fill(out, h('p', { class: 'quiet' }, value ? value.sheet : 'Reading\u2026'));
    const remove = it => h('button', { class: 'link', type: 'button', 'aria-label': `Remove ${it.name || `fixture ${it.number}`}`, onclick: () => actions.removeFixture(it.number) }, 'remove');
    const removeTool = it => h('button', { class: 'link', type: 'button', 'aria-label': `Remove tool ${it.number}`, onclick: () => actions.removeTool(it.number) }, 'remove');
    fill(out,
      value.note ? h('p', { class: 'quiet', id: 'job-note' }, value.note) : null,
      table(`Travel and speed, ${unit}`, ['Axis', 'From', 'To', `Speed, ${unit}/min`], AXES.map((axis, it) => [axis, at(scene.low[it]), at(scene.high[it]), at(Math.round(scene.rates.speeds[it] * 60 * 1000) / 1000)])),
      scene.fixtures.length ? table(`Fixtures, ${unit}`, ['Fixture', ...AXES, ''], scene.fixtures.map(it => [it.name || `fixture ${it.number}`, ...AXES.map((_, axis) => `${at(it.low[axis])} to ${at(it.high[axis])}`), it.isAdded ? 'job file' : remove(it)])) : h('p', {}, 'The machine file describes no fixtures.'),
      scene.stock ? table(`Material, ${unit}, in ${scene.stock.system ?? 'machine coordinates'}`, [...AXES, ''], [[...AXES.map((_, axis) => `${at(scene.stock.low[axis])} to ${at(scene.stock.high[axis])}`), scene.stock.isAdded ? 'job file' : h('button', { class: 'link', type: 'button', 'aria-label': 'Remove the material', onclick: actions.removeStock }, 'remove')]]) : null,
      h('div', { class: 'wide' }, table(`Tools, ${unit}`, ['Tool', 'Reach', 'Offset', 'Parts from the tip up', ''], scene.tools.map(it => [`T${it.number}${it.name ? ` ${it.name}` : ''}`, at(-it.bottom), at(it.offset), [it.cutter, it.parts.map(part => `\u00d8 ${at(part.radius * 2)} \u00d7 ${at(part.high - part.low)}`).join(', ')].filter(Boolean).join(' '), store.state.files.tools.source === 'example' ? '' : removeTool(it)]))),
      scene.warnings.length ? h('ul', { class: 'warned' }, scene.warnings.map(it => h('li', {}, it))) : null);
  });

  watchDemands(store, actions);
  // The corners of a box that were typed, or null with a notice.
  function boxOf(form, what) {
    const corner = name => listOf(form.elements[name].value).map(it => typedLength(it, store.state.unit)), low = corner('low'), high = corner('high');
    const isBox = low.length === 3 && high.length === 3 && [...low, ...high].every(Number.isFinite) && low.every((it, axis) => it < high[axis]);
    if (!isBox) actions.notice(`${what} has two corners of three numbers each: the lowest X, Y, Z and the highest.`, 'bad');
    return isBox ? { low, high } : null;
  }
  id('clamp').onsubmit = event => {
    event.preventDefault();
    const form = event.target, box = boxOf(form, 'A fixture');
    if (!box) return;
    actions.addFixture({ name: form.elements.name.value.trim(), ...box });
    form.reset();
  };
  id('tool').onsubmit = event => {
    event.preventDefault();
    const form = event.target, { unit } = store.state, typed = name => (form.elements[name].value.trim() ? typedLength(form.elements[name].value, unit) : null);
    const [diameter, reach, cutter, holder] = ['diameter', 'reach', 'cutter', 'holder'].map(typed), number = Number(form.elements.number.value), hasHolder = cutter !== null || holder !== null;
    if (!(Number.isInteger(number) && number >= 1 && number <= MOST_TOOL)) return actions.notice(`The number of a tool is from 1 to ${MOST_TOOL}.`, 'bad');
    if (![diameter, reach].every(it => it > 0) || (hasHolder && !(holder > 0 && cutter > 0 && cutter < reach))) return actions.notice('A tool has a diameter and a reach above 0. With a holder it has the holder\u2019s diameter too, and how far the cutter is out of it, which is less than the reach.', 'bad');
    const parts = [{ length: hasHolder ? cutter : reach, radius: Math.ceil(diameter / 2) }, ...(hasHolder ? [{ length: reach - cutter, radius: Math.ceil(holder / 2) }] : [])];
    actions.addTool({ number, name: form.elements.name.value.trim(), shape: form.elements.shape.value, reach, parts });
  };
  const system = id('stock-system');
  fill(system, SYSTEMS.map((it, at) => h('option', { value: String(at + 1) }, it)), h('option', { value: '0' }, 'machine coordinates'));
  id('stock').onsubmit = event => {
    event.preventDefault();
    const box = boxOf(event.target, 'The material');
    if (box) actions.setStock({ system: Number(system.value), ...box });
  };
  id('figures').onsubmit = event => {
    event.preventDefault();
    const { elements } = event.target, factor = store.state.unit === 'in' ? 25.4 : 1;
    const three = name => { const it = listOf(elements[name].value).map(word => Number(word.replace(',', '.')) * factor); return it.length === 1 ? [it[0], it[0], it[0]] : it; };
    const steps = Number(elements.steps.value), [travel, feed, acceleration] = ['travel', 'feed', 'acceleration'].map(three);
    const isGood = steps > 0 && [travel, feed, acceleration].every(it => it.length === 3 && it.every(value => value > 0));
    if (!isGood) return actions.notice('Steps per mm is one number; travel, speed and acceleration are one number or three, for X, Y and Z.', 'bad');
    // An empty field leaves the choice to the program.
    const one = (name, unit = 1) => (elements[name].value.trim() ? Number(elements[name].value.replace(',', '.')) * unit : null);
    const [corner, jump, ring] = [one('corner', factor), one('jump', factor), one('ring')];
    if ([corner, jump, ring].some(it => it !== null && !(it > 0))) return actions.notice('Speed at corners, jump and commands looked ahead are numbers above 0, or empty.', 'bad');
    actions.makeMachineOfFigures({ steps, travel, feed, acceleration, corner, jump, ring, isHigh: elements.frame.value === 'high' });
  };
}
