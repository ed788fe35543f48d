// The verdict as a sentence, with the travel, the time, the warnings and both settings of block delete.

import { current, failureOf, isRunning } from '../core/store.js';
import { asksNow, everyGroupsNow, everyNow, groupNow, groupsNow, keptNow, sceneNow } from '../core/shown.js';
import { CUTS, MOST_CUTS } from '../core/changes.js';
import { isRefusal } from '../core/controls.js';
import { withRemarks } from '../core/facts.js';
import { causeOf, certificateSentence, isHolder, isRapid, materialSentence, moreCutsMayHelp, obstacleSentence, verdictOf } from '../core/sentences.js';
import { sentenceOfFailure } from '../core/jobs.js';
import { duration, inUnit, length, plural } from '../core/units.js';
import { fill, h, id } from './dom.js';

const PATIENCE = 1500;   // ms after which a check says how long it takes
// A number stays beside its unit.
const unbroken = text => text.replace(/(\d) (mm|in)\b/g, '$1\u00a0$2');
const minus = text => text.replace('-', '\u2212');
const capital = text => text[0].toUpperCase() + text.slice(1);

// How much of the travel along an axis is used, as a bar between the two distances that are left.
function barOf(extent, low, high, unit) {
  const span = (high - low) * 1e6 || 1, part = at => Math.min(100, Math.max(0, (at - low * 1e6) / span * 100)), isOut = extent.left_below < 0 || extent.left_above < 0;
  const words = `${extent.axis} from ${length(extent.low, unit)} to ${length(extent.high, unit)}, of ${inUnit(low, unit)} to ${inUnit(high, unit)}; left: ${length(extent.left_below, unit)} below, ${length(extent.left_above, unit)} above`;
  return h('div', { class: `bar${isOut ? ' out' : ''}`, title: words, role: 'img', 'aria-label': words },
    h('b', {}, extent.axis), h('span', { class: 'left' }, minus(inUnit(extent.left_below / 1e6, unit))),
    h('span', { class: 'track' }, h('i', { style: { left: `${part(extent.low)}%`, width: `${Math.max(0.8, part(extent.high) - part(extent.low))}%` } })),
    h('span', { class: 'left' }, minus(inUnit(extent.left_above / 1e6, unit))));
}

const NO_TOOL = 222;   // the fault of a tool that isn't in the table
const MOST_WARNINGS = 40, MOST_RAPIDS = 10;   // cards
function cardOf({ text, count = 1, line = null, isNote = false, act = null }, actions) {
  return h('button', { class: `card${isNote ? ' told' : ''}`, type: 'button', disabled: !line && !act, onclick: act ?? (() => actions.goTo(line, 'verdict')) }, h('span', { class: 'sign', 'aria-hidden': 'true' }, isNote ? 'i' : '!'),
    h('span', {}, h('span', { class: 'sr' }, isNote ? 'Note: ' : 'Warning: '), capital(text), count > 1 ? ` (${count}\u00d7)` : '', line ? h('b', {}, ` line ${line}`) : null));
}
// What the cards say: a refused certificate, warnings, rapids and feeds that may touch material, tool changes in it, and notes about what controls do differently.
function cardsOf(group, remarks, refusedCertificate, unit, actions) {
  const { material = [] } = group ?? {}, [warnings, notes] = ['warning', 'note'].map(kind => withRemarks(group, kind, remarks));
  const rapids = material.filter(isRapid), feeds = material.filter(isHolder), changes = material.filter(it => !isRapid(it) && !isHolder(it));
  const more = (all, name) => (all.length > MOST_RAPIDS ? [{ text: `${plural(all.length - MOST_RAPIDS, `more ${name}`)} may touch material`, act: () => actions.tab('report') }] : []);
  return [
    ...(refusedCertificate ? [{ text: certificateSentence(...refusedCertificate) }] : []),
    ...warnings.slice(0, MOST_WARNINGS).map(it => ({ ...it, text: it.words })), ...[...changes.slice(0, MOST_RAPIDS), ...rapids.slice(0, MOST_RAPIDS)].map(it => materialSentence(it, unit)),
    ...more(rapids, 'rapid'), ...feeds.slice(0, MOST_RAPIDS).map(it => materialSentence(it, unit)), ...more(feeds, 'feed'),
    ...notes.filter(it => it.class === 'chosen').map(it => ({ ...it, text: it.words, isNote: true })),
  ];
}

// The notes beside the lines: warnings, then what is in the way or at fault.
function notesOf(group, every, everyValue, remarks, verdict, unit, kept) {
  const notes = new Map(), add = (line, kind, text, column = null) => { if (line) notes.set(line, { kind, text, column }); };
  const warn = (line, text) => add(line, 'warned', [notes.get(line)?.text, text].filter(Boolean).join('; '));
  for (const { line, words } of withRemarks(group, 'warning', remarks)) warn(line, words);
  for (const it of group?.material ?? []) warn(it.line, materialSentence(it, unit).note);
  for (const entry of every?.commands ?? []) add(entry.command.line, 'faulty', obstacleSentence(entry, unit, kept).note);
  for (const it of every?.faults ?? []) add(it.line, 'faulty', it.reason || `${causeOf(everyValue, it)}.`, it.column);
  add(verdict.line, 'faulty', verdict.note ?? '', verdict.column);
  return notes;
}

export function makeVerdict(store, actions, editor) {
  const banner = id('verdict'), title = id('verdict-title'), detail = id('verdict-detail'), buttons = id('verdict-actions'), example = id('verdict-example'), tabs = id('settings');
  let timer = null;
  const button = (label, onclick, kind = 'small') => h('button', { class: kind, type: 'button', onclick }, label);
  const clear = () => { for (const name of ['bars', 'metrics', 'warnings']) fill(id(name)); tabs.hidden = true; editor.setNotes(new Map()); };

  // The seconds are not read out: only the first words are in the live region.
  function showWaiting(since) {
    const seconds = Math.floor((performance.now() - since) / 1000), isLong = performance.now() - since > PATIENCE;
    banner.className = 'waiting';
    title.textContent = 'Checking\u2026';
    detail.textContent = isLong ? `${seconds} s` : '';
    fill(buttons, isLong ? button('Stop', actions.stop) : null);
    clearTimeout(timer);
    timer = setTimeout(() => isRunning(store.state, 'report') && showWaiting(since), 250);
  }
  function showFailure(failure) {
    banner.className = 'bad';
    title.textContent = failure.kind === 'stopped' ? 'Stopped: there is no verdict.' : sentenceOfFailure(failure);
    detail.textContent = '';
    fill(buttons, button('Check again', actions.check));
    clear();
  }
  function showSettings(groups, everyGroups) {
    const known = new Map([...everyGroups, ...groups].filter(it => it.blockDelete !== null).map(it => [it.blockDelete, it.fits]));
    tabs.hidden = known.size === 0;
    const tabOf = setting => {
      const fits = known.get(setting), isOn = store.state.blockDelete === setting, state = fits === undefined ? 'not known yet' : fits ? 'fits' : 'does not fit';
      const keydown = event => {
        if (!event.key.startsWith('Arrow')) return;
        event.preventDefault();
        actions.setBlockDelete(!setting);
        queueMicrotask(() => tabs.querySelector('[aria-selected=true]')?.focus());
      };
      return h('button', { role: 'tab', type: 'button', 'aria-selected': String(isOn), tabindex: isOn ? '0' : '-1', class: fits === undefined ? '' : fits ? 'good' : 'bad',
        title: `Lines that begin with / are ${setting ? 'skipped' : 'executed'}`, 'aria-label': `Block delete ${setting ? 'on' : 'off'}: ${state}`, onclick: () => actions.setBlockDelete(setting), onkeydown: keydown },
      setting ? 'on ' : 'off ', h('span', { 'aria-hidden': 'true' }, fits === undefined ? '\u2026' : fits ? '\u2713' : '\u2717'));
    };
    fill(tabs, h('span', { class: 'label', 'aria-hidden': 'true' }, 'Block delete'), known.size ? [tabOf(false), tabOf(true)] : null);
  }
  // Buttons for more cuts where they may clear the motion, and for the usual number again.
  function buttonsOfCuts(group, cuts) {
    const mayHelp = group?.commands.length && moreCutsMayHelp(group.commands[0]), more = (cuts ?? CUTS) * 8;
    return [mayHelp && more <= MOST_CUTS ? button(`Check with ${more} cuts`, () => actions.setCuts(more)) : null, cuts ? button(`Back to ${CUTS} cuts`, () => actions.setCuts(null)) : null];
  }
  function showActions(report, group, every, verdict) {
    const noTool = report.fault === NO_TOOL ? /tool (\d+)/i.exec(verdict.title)?.[1] : null;
    const places = every?.commands.length ?? 0, faults = every?.faults.length ?? 0, mayAsk = isRefusal(report) && !report.dialect && !noTool && !store.state.files.program.isOwn && !asksNow(store.state);
    fill(buttons,
      verdict.line ? button(`Go to line ${verdict.line}`, () => actions.goTo(verdict.line, 'verdict')) : null,
      places > 1 ? button(`All ${plural(places, 'place')}`, () => actions.tab('report')) : null,
      faults > 1 ? button(`All ${plural(faults, 'fault')}`, () => actions.tab('report')) : null,
      buttonsOfCuts(group, store.state.cuts),
      group?.commands[0]?.command.fact === 'command' ? button('Where would it fit?', () => { actions.tab('place'); actions.place(); }) : null,
      mayAsk ? button('Is it for a control\u2026', actions.ask) : null,
      isRefusal(report) && !report.dialect && !noTool ? button('Rewrite for this control\u2026', actions.adapt) : null,
      noTool ? button(`Describe tool ${noTool}\u2026`, () => actions.describe('tool', noTool)) : null,
      store.state.files.machine.source === 'example' && store.state.files.program.source !== 'example' ? button('Describe your machine\u2026', () => actions.describe('figures')) : null,
      report.fault ? button(`What is fault ${report.fault}?`, () => actions.showIn('report', id('explained')), 'small plain') : null);
  }
  function showFigures(group, scene, unit) {
    const hasBars = group && scene && group.extents.length === 3, metric = (value, label) => h('div', {}, h('b', {}, value), h('span', {}, label));
    fill(id('bars'), hasBars ? h('span', { class: 'label' }, `Travel, and what is left of it, ${unit}`) : null, hasBars ? group.extents.map((it, axis) => barOf(it, scene.low[axis], scene.high[axis], unit)) : null);
    fill(id('metrics'), group?.time ? metric(duration(group.time.seconds), 'run time') : null,
      group?.fits && group.useTimes.length > 1 ? group.useTimes.slice(0, 12).map(it => metric(duration(it.seconds), it.tool === null ? 'no tool' : `T${it.tool}`)) : null);
  }

  store.watch(state => [current(state, 'report'), isRunning(state, 'report'), failureOf(state, 'report'), groupNow(state), everyNow(state), sceneNow(state), state.blockDelete, state.unit, asksNow(state), current(state, 'remarks'), current(state, 'certificate'), state.files.certificate], (report, isWaiting, failure, group, every, scene, _, unit, asks, remarks, checked, certificate) => {
    id('facts').classList.toggle('stale', !report);
    if (failure) return showFailure(failure);
    if (!report) {
      fill(id('warnings'));
      editor.setNotes(new Map());
      return showWaiting(isWaiting ? store.state.slots.report.begun : performance.now());
    }
    clearTimeout(timer);
    const verdict = verdictOf(report, group, scene, unit), isWarned = Boolean(group?.warnings.length || group?.material.length);
    banner.className = verdict.kind === 'bad' ? 'bad' : verdict.isCareful || isWarned ? 'good careful' : 'good';
    title.textContent = unbroken(verdict.title);
    detail.textContent = verdict.detail ?? '';
    showActions(report, group, every, verdict);
    showSettings(groupsNow(store.state), everyGroupsNow(store.state));
    showFigures(group, scene, unit);
    fill(id('warnings'), cardsOf(group, remarks, checked && !checked.isAccepted ? [certificate, checked] : null, unit, actions).map(it => cardOf(it, actions)));
    editor.setNotes(notesOf(group, every, current(store.state, 'every'), remarks, verdict, unit, keptNow(store.state)));
    if (verdict.line && store.state.line === 0) actions.goTo(verdict.line, 'verdict');
  });
  store.watch(state => [state.files.machine?.source === 'example', state.files.tools?.source === 'example'], (isMachine, isTools) => {
    example.hidden = !isMachine && !isTools;
    example.textContent = isMachine && isTools ? 'Example machine and tools, not yours' : isMachine ? 'Example machine, not yours' : 'Example tools, not yours';
  });
}
