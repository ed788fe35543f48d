// The state of the page, in one place. Views read it, and only `reduce` changes it. Data flows one way:
// files -> jobs in the workers -> results -> views.

import { NO_DEMANDS, changesOf } from './changes.js';
import { dialectNow } from './controls.js';

// Makes a store. `watch` calls `act` with what `select` returns: at once, and again whenever a part of it changes.
export function makeStore(reduce, first) {
  let state = first, isScheduled = false;
  const watchers = [];
  const notify = () => { isScheduled = false; for (const look of watchers) look(); };
  return {
    get state() { return state; },
    dispatch(action) {
      const next = reduce(state, action);
      if (next === state) return;
      state = next;
      if (!isScheduled) { isScheduled = true; queueMicrotask(notify); }
    },
    watch(select, act) {
      let before = null;
      const look = () => {
        const now = select(state);
        if (before && now.every((it, at) => Object.is(it, before[at]))) return;
        before = now;
        act(...now);
      };
      watchers.push(look);
      look();
    },
  };
}

const SLOTS = ['report', 'every', 'remarks', 'scene', 'path', 'part', 'index', 'place', 'certificate', 'search', 'drawing'];
const EMPTY = { key: '', status: 'none', value: null, failure: null, begun: 0, took: 0 };

export const firstState = {
  files: { program: null, machine: null, tools: null, job: null, certificate: null },
  programs: [],                 // the programs that were dropped together
  text: null,                   // the program in use as a ProgramText
  origins: {},                  // origins for this check: system -> X, Y and Z in nanometres
  demands: NO_DEMANDS,          // margins and the way of rapids for this check
  cuts: null,                   // cuts of each motion for this check, or null for the program's own number
  control: null,                // the control that programs are for, 'own' for our own language, or null without an answer
  isAsking: false,              // whether the question for the control was opened
  blockDelete: false,
  slots: Object.fromEntries(SLOTS.map(slot => [slot, EMPTY])),
  line: 0,                      // the chosen line, from 1
  lineFrom: '',                 // who chose it: 'text', 'picture', 'player', 'verdict'
  hovered: -1,                  // the command under the pointer
  time: null,                   // the player's time in seconds, or null at the end
  isPlaying: false,
  speed: 5,
  unit: 'mm', theme: 'auto', colour: 'tool', hasRapids: true, hasPart: false, drawing: 3,
  tab: 'program',
  query: '',
  notices: [],
};

// What a result depends on. A result with another key is older than the files in use, and is never shown.
export const inputsKey = state =>
  `${[state.files.program, state.files.machine, state.files.tools, state.files.job].map(it => it?.version ?? 0).join('.')} ${JSON.stringify(changesOf(state))}`;
export const shownKey = state => `${inputsKey(state)} ${state.blockDelete}`;
export const keyOf = {
  report: inputsKey, every: inputsKey, remarks: inputsKey, place: inputsKey, path: shownKey, part: shownKey,
  drawing: state => `${shownKey(state)} ${state.drawing}`,
  // What a job file adds depends on all that replaces it.
  scene: state => `${state.files.machine?.version}.${state.files.tools?.version}.${state.files.job?.version} ${JSON.stringify(state.files.job ? changesOf(state) : state.origins)}`,
  index: state => String(state.files.program?.base),
  search: state => `${state.files.program?.version} ${state.query}`,
  certificate: state => `${inputsKey(state)} ${state.files.certificate?.version}`,
};

const slotNow = (state, slot) => { const it = state.slots[slot]; return it.key === keyOf[slot](state) ? it : EMPTY; };
// The value of a slot if it belongs to the files in use, or null.
export const current = (state, slot) => { const it = slotNow(state, slot); return it.status === 'done' ? it.value : null; };
export const isRunning = (state, slot) => slotNow(state, slot).status === 'running';
export const failureOf = (state, slot) => slotNow(state, slot).failure;

const withSlot = (state, slot, values) => ({ ...state, slots: { ...state.slots, [slot]: { ...state.slots[slot], ...values } } });
// Nothing of one program may act on another one.
const FRESH = { blockDelete: false, cuts: null, line: 0, lineFrom: '', hovered: -1, time: null, isPlaying: false, isAsking: false, query: '' };
let notices = 0;

export function reduce(state, action) {
  switch (action.type) {
    case 'file': {
      const next = { ...state, files: { ...state.files, [action.kind]: action.file } };
      if (action.kind === 'program') Object.assign(next, FRESH, { text: action.text });
      if (['machine', 'job'].includes(action.kind)) Object.assign(next, { origins: {}, demands: NO_DEMANDS, cuts: null, control: null });
      return next;
    }
    case 'control': {
      const next = { ...state, control: action.control, isAsking: false };
      // The same text means something else to another control, so nothing of the old meaning stays.
      return dialectNow(next) === dialectNow(state) ? next : { ...next, ...FRESH, query: state.query };
    }
    case 'edited':
      return { ...state, text: action.text, files: { ...state.files, program: action.file }, isPlaying: false, time: null, hovered: -1,
        line: action.line, lineFrom: 'text' };
    case 'begun': return withSlot(state, action.slot, { ...EMPTY, key: action.key, status: 'running', begun: performance.now() });
    case 'result': {
      const slot = state.slots[action.slot];
      if (slot.key !== action.key || slot.status !== 'running') return state;
      const { value = null, failure = null } = action;
      return withSlot(state, action.slot, { status: failure ? 'failed' : 'done', value, failure, took: performance.now() - slot.begun });
    }
    case 'line': {
      const isPlaying = action.from === 'player' && state.isPlaying;
      return { ...state, line: action.line, lineFrom: action.from, time: action.time === undefined ? state.time : action.time, isPlaying };
    }
    case 'notice': return { ...state, notices: [...state.notices, { id: ++notices, ...action.notice }].slice(-4) };
    case 'dismiss': return { ...state, notices: state.notices.filter(it => it.id !== action.id) };
    case 'set': return { ...state, ...action.values };
    default: throw new Error(`unknown action ${action.type}`);
  }
}
