// What is in use: the program, the machine, the tools, and a certificate if there is one. And the notices.

import { current, failureOf } from '../core/store.js';
import { lackNow } from '../core/job.js';
import { sceneNow } from '../core/shown.js';
import { sentenceOfFailure } from '../core/jobs.js';
import { inUnit, length, plural, size } from '../core/units.js';
import { makeChoice } from './control.js';
import { fill, h, id } from './dom.js';

const BADGES = { example: ['badge', 'example'], edited: ['badge quiet', 'edited'], made: ['badge quiet', 'made here'], kept: ['badge quiet', 'from last time'] };
const SIGNS = { fits: '\u2713 ', refused: '\u2717 ', failed: '? ' };

const chip = (kind, label, file, about, more = null) => h('div', { class: `chip chip-${kind}${file?.source === 'example' ? ' example' : ''}` },
  h('span', { class: 'label' }, label), h('span', { class: 'name', title: file?.name }, file ? file.name : 'none'), h('span', { class: 'about' }, about),
  BADGES[file?.source] ? h('span', { class: BADGES[file.source][0] }, BADGES[file.source][1]) : null, more);

function certificateChip(certificate, verdict, failure, actions) {
  const about = failure ? `not checked: ${sentenceOfFailure(failure)}` : !verdict ? 'checking\u2026' : verdict.isAccepted ? 'accepted for these files' : `refused, fault ${verdict.fault}`;
  return h('div', { class: `chip certificate ${verdict?.isAccepted ? 'good' : verdict || failure ? 'bad' : ''}` }, h('span', { class: 'label' }, 'Certificate'), h('span', { class: 'name' }, certificate.name),
    h('span', { class: 'about', title: verdict?.explanation ?? '' }, about), h('button', { class: 'close', type: 'button', 'aria-label': 'Forget the certificate', onclick: actions.forgetCertificate }, '\u00d7'));
}

function jobChip(job, lack, note, actions) {
  const about = lack ? 'a file is missing' : /^ngc: .* adds /.test(note) ? 'adds to each call' : note ? 'refused' : 'adds nothing';
  return h('div', { class: `chip job ${lack || about === 'refused' ? 'bad' : ''}` }, h('span', { class: 'label' }, 'Job'), h('span', { class: 'name', title: job.name }, job.name),
    h('span', { class: 'about', title: lack ?? note }, about), h('button', { class: 'close', type: 'button', 'aria-label': 'Forget the job file', onclick: actions.forgetJob }, '\u00d7'));
}

// What this check replaces in the machine file.
function changesIn(origins, demands, cuts, unit) {
  const moved = Object.keys(origins), { margin, travelMargin, rapids } = demands;
  return [moved.length ? `${moved.join(', ')} moved` : '', margin === null ? '' : `margin ${length(margin, unit)}`, travelMargin === null ? '' : `travel margin ${length(travelMargin, unit)}`, rapids === null ? '' : `rapids ${rapids}`, cuts === null ? '' : `${cuts} cuts`];
}

export function makeStrip(store, actions) {
  const choice = makeChoice(store, actions);
  store.watch(state => [state.files.program, state.files.machine, state.files.tools, state.files.certificate, state.text?.count, sceneNow(state), current(state, 'certificate'), failureOf(state, 'certificate'), state.unit, state.programs, state.origins, state.demands, state.cuts, state.files.job, lackNow(state), current(state, 'scene')?.note],
    (program, machine, tools, certificate, lines, scene, verdict, failure, unit, programs, origins, demands, cuts, job, lack, note) => {
      const others = programs.length < 2 ? null : h('select', { 'aria-label': `The ${programs.length} programs that were dropped`, onchange: event => actions.useProgram(programs[Number(event.target.value)]) },
        h('option', { value: '', selected: true }, `${programs.length}`), programs.map((it, at) => h('option', { value: String(at) }, `${SIGNS[it.verdict] ?? ''}${it.name}`)));
      const span = scene ? [0, 1, 2].map(axis => inUnit(Math.round((scene.high[axis] - scene.low[axis]) * 1000) / 1000, unit)).join('\u2009\u00d7\u2009') : '';
      const travel = scene ? `${span} ${unit}, ${plural(scene.fixtures.length, 'fixture')}` : '';
      // An element that is put elsewhere loses the focus.
      const hadFocus = document.activeElement === choice;
      fill(id('strip'), chip('program', 'Program', program, !program ? '' : lines ? plural(lines, 'line') : size(program.size), [others, choice]),
        chip('machine', 'Machine', machine, [travel, ...changesIn(origins, demands, cuts, unit)].filter(Boolean).join('; ')), chip('tools', 'Tools', tools, scene ? plural(scene.tools.length, 'tool') : ''),
        job ? jobChip(job, lack, note ?? '', actions) : null, certificate ? certificateChip(certificate, verdict, failure, actions) : null);
      if (hadFocus) choice.focus();
    });
  const dismiss = it => store.dispatch({ type: 'dismiss', id: it.id });
  store.watch(state => [state.notices], notices => fill(id('notices'), notices.map(it => h('div', { class: `notice ${it.kind}` }, h('span', {}, it.text),
    it.action ? h('button', { class: 'small', type: 'button', onclick: () => { dismiss(it); it.action.act(); } }, it.action.label) : null,
    h('button', { class: 'close', type: 'button', 'aria-label': 'Dismiss', onclick: () => dismiss(it) }, '\u00d7')))));
}
