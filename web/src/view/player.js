// Plays the program: a scrubber over its time, and the tool moves in the picture.

import { contactNow, pathNow, timesNow } from '../core/shown.js';
import { beginOf, momentAt, timeAt } from '../core/motion.js';
import { timeOfContact } from '../core/contact.js';
import { duration } from '../core/units.js';
import { toolColour } from './colours.js';
import { fill, h, id } from './dom.js';

const MARKS = 60;   // uses of tools that are marked

export function makePlayer(store, actions) {
  const slider = id('time'), play = id('play'), rewind = id('rewind'), out = id('clock'), track = id('time-track'), speed = id('speed');
  let last = 0;
  const endOf = times => (times?.length ? times[times.length - 1] : 0);

  function show(time, isPlaying, path, times) {
    const end = endOf(times), now = time ?? 0, isReady = end > 0;
    for (const it of [slider, play, rewind]) it.disabled = !isReady;
    slider.max = String(end || 1);
    slider.value = String(now);
    play.dataset.playing = String(isPlaying);
    play.setAttribute('aria-label', isPlaying ? 'Pause' : 'Play');
    out.textContent = isReady ? `${duration(now)} / ${duration(end)}` : '0:00';
    slider.setAttribute('aria-valuetext', isReady ? `${duration(now)}, line ${path.lines[momentAt(path, times, now).command]}` : 'no program to play');
  }
  // The uses of tools below the scrubber, and the moment at which the program is refused.
  function showMarks(path, times, contact) {
    const end = endOf(times), refused = timeOfContact(contact, times), percent = time => `${time / end * 100}%`;
    if (!path || !end) return fill(track);
    fill(track, path.uses.slice(0, MARKS).filter(it => it.to > it.from).map(({ tool, from, to }) => h('i', { class: 'tool', style: { left: percent(beginOf(times, from)), width: percent(timeAt(times, to - 1, 1) - beginOf(times, from)), background: toolColour(path, tool) } })),
      refused === null ? null : h('button', { class: 'hit', type: 'button', style: { left: percent(refused) }, 'aria-label': `Go to where it is refused, ${duration(refused)}`, title: 'Where it is refused', onclick: () => actions.seek(refused) }));
  }
  function tick(now) {
    const { state } = store, path = pathNow(state), times = timesNow(state);
    if (!state.isPlaying || !times) return;
    const before = state.time ?? 0, at = Math.min(endOf(times), before + Math.min(1, (now - last) / 1000) * state.speed), refused = timeOfContact(contactNow(state), times);
    last = now;
    // A refused program stops where it is refused.
    const stops = refused !== null && before < refused && at >= refused, time = stops ? refused : at;
    store.dispatch({ type: 'set', values: { time, isPlaying: !stops && at < endOf(times) } });
    store.dispatch({ type: 'line', line: path.lines[momentAt(path, times, time).command], from: 'player' });
    requestAnimationFrame(tick);
  }
  play.onclick = () => {
    const { isPlaying, time } = store.state, isAtEnd = time === null || time >= endOf(timesNow(store.state)) - 1e-9;
    store.dispatch({ type: 'set', values: { isPlaying: !isPlaying, time: !isPlaying && isAtEnd ? 0 : time } });
    last = performance.now();
    if (!isPlaying) requestAnimationFrame(tick);
  };
  rewind.onclick = () => actions.seek(0);
  slider.oninput = () => actions.seek(Number(slider.value));
  speed.onchange = () => store.dispatch({ type: 'set', values: { speed: Number(speed.value) } });
  store.watch(state => [state.speed], factor => { speed.value = String(factor); });
  store.watch(state => [state.time, state.isPlaying, pathNow(state), timesNow(state)], show);
  store.watch(state => [pathNow(state), timesNow(state), contactNow(state)], showMarks);
}
