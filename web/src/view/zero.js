// Where the zero may be: the intervals along each axis, and fields for another zero for this check alone.

import { current, failureOf, isRunning } from '../core/store.js';
import { sceneNow } from '../core/shown.js';
import { sentenceOfFailure } from '../core/jobs.js';
import { meaningOf } from '../core/sentences.js';
import { AXES, SYSTEMS } from '../core/systems.js';
import { atLeast, enough, inUnit, length, plural, typedLength } from '../core/units.js';
import { fill, h, id } from './dom.js';

const FARTHEST = 1e9;   // nanometres
const plus = nm => (nm > 0 ? '+' : '');

export function makeZero(store, actions) {
  const system = id('system'), fields = AXES.map(axis => id(`origin-${axis}`)), out = id('place');
  const zeroOf = state => (state.origins[system.value] ?? (sceneNow(state)?.origins[system.value] ?? [0, 0, 0]).map(it => it * 1e6)).map(Math.round);
  const showZero = () => zeroOf(store.state).forEach((it, axis) => { if (document.activeElement !== fields[axis]) fields[axis].value = inUnit(it / 1e6, store.state.unit); });
  fill(system, SYSTEMS.map(it => h('option', {}, it)));
  system.onchange = showZero;
  id('origin-form').onsubmit = event => {
    event.preventDefault();
    const at = fields.map(field => typedLength(field.value, store.state.unit));
    if (at.some(it => !Number.isFinite(it) || Math.abs(it) > FARTHEST)) return actions.notice(`A zero is at most ${store.state.unit === 'in' ? '39.37 in' : '1000 mm'} from the machine's.`, 'bad');
    actions.setOrigins({ ...store.state.origins, [system.value]: at });
  };
  id('origin-reset').onclick = () => actions.setOrigins({});
  id('find-place').onclick = () => actions.place();
  id('stop-place').onclick = () => actions.stopPlace();
  store.watch(state => [sceneNow(state), state.origins, state.unit], showZero);
  store.watch(state => [state.origins], origins => { id('origin-reset').hidden = !Object.keys(origins).length; });

  function sentenceOf(found) {
    if (found.fitsHere) return `It fits where ${found.system} is. The zero may move:`;
    return found.along.some(Boolean) ? `It doesn't fit where ${found.system} is. It fits if the zero moves along one axis:`
      : `No shift of ${found.system} along one axis was found. If the part is off along two axes, set the zero near the middle of the travel first.`;
  }
  function rowOf(found, axis, unit) {
    const interval = found.along[axis], ends = found.along.flatMap(it => (it ? [Math.abs(it.from), Math.abs(it.to)] : [])).filter(it => it < FARTHEST);
    const reach = Math.max(...ends, 1e7) * 1.15, part = nm => Math.min(100, Math.max(0, (nm / reach + 1) * 50));
    if (!interval) return h('div', { class: 'shift' }, h('b', {}, AXES[axis]), h('span', { class: 'track', 'aria-hidden': 'true' }, h('em', {})), h('span', {}, found.isKnown[axis] ? 'no shift that was tried' : 'nothing is known'));
    const { from, to } = interval, shift = Math.abs(from) < Math.abs(to) ? from : to;
    const move = () => actions.setOrigins({ ...store.state.origins, [found.system]: found.at.map((it, other) => (other === axis ? it + shift : it)) });
    return h('div', { class: 'shift' }, h('b', {}, AXES[axis]),
      h('span', { class: 'track', 'aria-hidden': 'true' }, h('i', { style: { left: `${part(from)}%`, width: `${Math.max(1, part(to) - part(from))}%` } }), h('em', {})),
      h('span', {}, `${plus(from)}${enough(from, unit)} to ${plus(to)}${atLeast(to, unit)}`),
      found.fitsHere ? null : h('button', { class: 'small', type: 'button', onclick: move }, `Move ${plus(shift)}${length(shift, unit)}`));
  }
  store.watch(state => [current(state, 'place'), isRunning(state, 'place'), failureOf(state, 'place'), state.unit], (found, isWaiting, failure, unit) => {
    id('stop-place').hidden = !isWaiting;
    if (isWaiting) return fill(out, h('p', { class: 'quiet' }, 'Trying shifts\u2026'));
    if (failure) return fill(out, h('p', { class: 'bad' }, failure.kind === 'stopped' ? 'Stopped: the shifts are not known.' : sentenceOfFailure(failure)));
    if (!found) return fill(out);
    const meaning = found.status ? meaningOf(found.explanation) : null;
    if (meaning) return fill(out, h('p', { class: 'bad' }, `The shifts are not known. ${meaning.cause}. ${meaning.remedy}`));
    fill(out, h('p', {}, sentenceOf(found)), AXES.map((_, axis) => rowOf(found, axis, unit)),
      found.staying ? h('p', { class: 'quiet' }, `${plural(found.staying, 'motion')} of the program, as with G53 or G28, ${found.staying === 1 ? 'stays' : 'stay'} where the machine has them.`) : null,
      h('p', { class: 'quiet' }, 'Found by ngc place. At both ends of each interval the whole program was checked. Between them it fits where its motions move with the zero or stay, as they do at the ends.'));
  });
  return { system: () => system.value };
}
