// The program as text. Only the lines in sight are elements. The line with the cursor is a text field of its own, so keyboards, screen
// readers and phones treat it as one; Enter splits a line, Backspace joins it with the one before.

import { commandsOf, isMotion } from '../core/motion.js';
import { pathNow, timesNow } from '../core/shown.js';
import { current, failureOf, isRunning } from '../core/store.js';
import { sentenceOfFailure } from '../core/jobs.js';
import { count, plural, size } from '../core/units.js';
import { fill, h, id } from './dom.js';

const ROW = 21;              // points
const TALLEST = 8_000_000;   // points: browsers limit the height of an element
const LONGEST = 400;         // bytes of a line that are shown
const EDITABLE = 5000;       // bytes of a line that can be edited here
const TOGETHER = 800;        // ms within which edits of one line are one step of undo
const COPIED = 20_000_000;   // bytes that are copied at most
const MARKS = 400;
const TOKEN = /(\([^)]*\)?|;.*$)|([GM]\s*-?\d+(?:\.\d+)?)|([XYZIJKRQ]\s*[-+]?(?:\d+\.?\d*|\.\d+))|([FSTHDPLN]\s*[-+]?(?:\d+\.?\d*|\.\d+))/gi;
const KINDS = ['comment', 'code', 'axis', 'value'];
const LINE_QUERY = /^\s*(?:line|l|:)\s*(\d+)\s*$/i;

const isCommand = event => event.ctrlKey || event.metaKey;

function coloured(text) {
  const parts = [];
  let at = 0;
  for (const match of text.matchAll(TOKEN)) {
    parts.push(text.slice(at, match.index), h('span', { class: KINDS[match.slice(1).findIndex(it => it !== undefined)] }, match[0]));
    at = match.index + match[0].length;
  }
  return [...parts, text.slice(at)].filter(it => it !== '');
}

// The text of a line, with the word at a column underlined. Columns count bytes, so they are known after plain characters only.
function marked(text, column) {
  const before = text.slice(0, column - 1);
  if (!column || before.length < column - 1 || /[^\x20-\x7e\t]/.test(before)) return coloured(text);
  const [word = ''] = /^.[^\sA-Za-z#(;]*/.exec(text.slice(column - 1)) ?? [];
  return word ? [...coloured(before), h('u', {}, word), ...coloured(text.slice(column - 1 + word.length))] : coloured(text);
}

export function makeEditor(store, actions) {
  const box = id('editor'), rows = id('rows'), spacer = id('spacer'), marks = id('marks'), said = id('said'), query = id('query'), hits = id('hits');
  let top = 0, frame = 0, field = null, anchor = 0, isOurs = false, hit = -1, lastEdit = 0, width = 0;
  let found = [], foundSet = new Set(), notes = new Map(), past = [], future = [];

  const text = () => store.state.text;
  const total = () => text()?.count ?? 0;
  const inSight = () => Math.max(1, Math.floor(box.clientHeight / ROW));
  const highest = () => Math.max(0, total() - inSight() + 1);
  const within = line => Math.min(Math.max(1, line), total());

  // ---- painting

  function render() { frame ||= requestAnimationFrame(() => { frame = 0; paint(); }); }
  function rowOf(line, isChosen) {
    const note = notes.get(line), isEdited = field?.line === line;
    // The line with the cursor keeps its element, so that it keeps the focus.
    const row = isEdited && field.row ? field.row : h('div', { role: 'listitem' }, h('span', { class: 'number', 'aria-hidden': 'true' }, String(line)));
    row.className = `row${isChosen ? ' chosen' : ''}${note ? ` ${note.kind}` : ''}${foundSet.has(line) ? ' found' : ''}`;
    for (const [name, value] of [['data-line', line], ['aria-setsize', total()], ['aria-posinset', line], ['aria-current', line === store.state.line]]) row.setAttribute(name, value);
    row.querySelector('.note')?.remove();
    if (!isEdited) {
      const isLong = text().lengthOf(line - 1) > LONGEST;
      row.append(h('span', { class: 'code-text' }, marked(text().line(line - 1, LONGEST), note?.column), isLong ? h('span', { class: 'cut' }, ` \u2026 ${size(text().lengthOf(line - 1))}`) : null));
    } else if (!field.row) { row.append(field.element); field.row = row; }
    if (note) row.append(h('span', { class: 'note' }, note.text));
    return row;
  }
  function paint() {
    if (!text()) return fill(rows);
    spacer.style.height = `${Math.min(total() * ROW, TALLEST)}px`;
    top = Math.min(Math.max(0, top), highest());
    box.style.setProperty('--gutter', `${Math.max(3, String(total()).length) + 1}ch`);
    const first = Math.floor(top), last = Math.min(total(), first + inSight() + 2), shift = box.scrollTop - (top - first) * ROW, { line: chosen } = store.state;
    const [from, to] = [Math.min(anchor || chosen, chosen), Math.max(anchor || chosen, chosen)];
    if (field && (field.line <= first || field.line > last)) {
      const hadFocus = document.activeElement === field.element;
      field.element.onblur = null;
      field = null;
      if (hadFocus) box.focus({ preventScroll: true });
    }
    const kept = field?.row ?? null, made = [];
    for (let line = first + 1; line <= last; line++) {
      const row = rowOf(line, chosen > 0 && line >= from && line <= to);
      row.style.transform = `translateY(${shift + (line - 1 - first) * ROW}px)`;
      made.push(row);
    }
    if (!kept?.isConnected) return rows.replaceChildren(...made);
    for (const old of [...rows.children]) if (old !== kept) old.remove();
    kept.before(...made.slice(0, made.indexOf(kept)));
    kept.after(...made.slice(made.indexOf(kept) + 1));
  }

  // ---- scrolling: in lines, since a program of a million lines is taller than an element can be

  const isTall = () => total() * ROW > TALLEST;
  const linesOfPoint = () => (isTall() ? Math.max(1, highest()) / Math.max(1, TALLEST - box.clientHeight) : 1 / ROW);
  function setTop(line) {
    top = Math.min(Math.max(0, line), highest());
    const at = Math.round(top / linesOfPoint());
    spacer.style.height = `${Math.min(total() * ROW, TALLEST)}px`;
    if (Math.abs(box.scrollTop - at) > 0.5) { isOurs = true; box.scrollTop = at; }
    render();
  }
  function show(line) {
    if (line - 1 < top + 1 || line > top + inSight() - 2) setTop(line - 1 - Math.floor(inSight() / 2.4));
    else render();
  }
  box.addEventListener('scroll', () => {
    if (!isOurs) top = box.scrollTop * linesOfPoint();
    isOurs = false;
    render();
  });
  box.addEventListener('wheel', event => {
    if (!isTall() || event.ctrlKey) return;
    event.preventDefault();
    setTop(top + event.deltaY * (event.deltaMode ? 1 : 1 / ROW));
  }, { passive: false });
  new ResizeObserver(render).observe(box);

  // ---- choosing

  function choose(wanted, extend = false) {
    const line = within(wanted), path = pathNow(store.state), times = timesNow(store.state), [, to] = commandsOf(path, line);
    if (!extend) anchor = line;
    store.dispatch({ type: 'line', line, from: 'text', time: store.state.time === null || !times || !to ? store.state.time : times[to - 1] });
    show(line);
  }
  function say(line) {
    const note = notes.get(line)?.text, words = text().line(line - 1, LONGEST).trim();
    said.textContent = [`Line ${line}`, words || 'empty', note].filter(Boolean).join(', ');
  }
  function chooseAndSay(line, extend) { choose(line, extend); say(store.state.line); }

  // ---- editing

  function leave(isFocused = false) {
    if (!field) return;
    field.element.onblur = null;
    field = null;
    if (isFocused) box.focus({ preventScroll: true });
    render();
  }
  function edit(wanted, column = 0) {
    const line = within(wanted), length = text().lengthOf(line - 1);
    leave();
    if (length > EDITABLE) { choose(line); return actions.notice(`Line ${line} has ${size(length)}: too long to edit here.`, 'bad'); }
    const element = h('input', { class: 'code-text', 'aria-label': `Line ${line} of ${total()}`, spellcheck: 'false', autocomplete: 'off', autocapitalize: 'characters', maxlength: String(EDITABLE) });
    element.value = text().line(line - 1);
    field = { line, element, row: null };
    element.oninput = () => replace(line, 1, [element.value], line, true);
    element.onkeydown = keyInField;
    element.onpaste = pasteInField;
    element.onblur = () => { if (field?.element === element) leave(); };
    choose(line);
    paint();
    element.focus({ preventScroll: true });
    const at = Math.min(column, element.value.length);
    element.setSelectionRange(at, at);
  }
  function pasteInField(event) {
    const lines = event.clipboardData.getData('text/plain').split(/\r\n|\r|\n/), { element, line } = field, { value } = element;
    if (lines.length < 2) return;
    event.preventDefault();
    const after = value.slice(element.selectionEnd), column = lines[lines.length - 1].length;
    lines[0] = value.slice(0, element.selectionStart) + lines[0];
    lines[lines.length - 1] += after;
    replace(line, 1, lines, line + lines.length - 1);
    edit(line + lines.length - 1, column);
  }
  const KEYS = {
    ArrowUp: ({ line, at }) => line > 1 && edit(line - 1, at),
    ArrowDown: ({ line, at }) => line < total() && edit(line + 1, at),
    PageUp: ({ line, at }) => edit(line - inSight(), at),
    PageDown: ({ line, at }) => edit(line + inSight(), at),
    Escape: () => leave(true),
    Enter({ line, at, value, end }) { replace(line, 1, [value.slice(0, at), value.slice(end)], line + 1); edit(line + 1, 0); },
  };
  function keyInField(event) {
    const { element, line } = field, { value, selectionStart: at, selectionEnd: end } = element, isAtPoint = at === end;
    const join = (first, second, to) => {
      event.preventDefault();
      replace(to, 2, [first + second], to);
      edit(to, first.length);
    };
    if (isCommand(event)) return keyWithControl(event);
    if (event.key === 'Backspace' && isAtPoint && at === 0 && line > 1) return join(text().line(line - 2), value, line - 1);
    if (event.key === 'Delete' && isAtPoint && at === value.length && line < total()) return join(value, text().line(line), line);
    if (!KEYS[event.key]) return;
    event.preventDefault();
    KEYS[event.key]({ line, at, end, value });
  }
  // Keys of the text and of its field. Returns whether it was one.
  function keyWithControl(event) {
    const key = event.key.toLowerCase();
    if (key === 'z') undo(event.shiftKey);
    else if (key === 'y') undo(true);
    else if (key === 'f') query.focus();
    else return false;
    event.preventDefault();
    return true;
  }
  // Puts lines in place of `deleted` lines from `line` on.
  function replace(line, deleted, lines, cursor, isTyping = false) {
    const now = performance.now(), before = text();
    const continues = isTyping && now - lastEdit < TOGETHER && past.length && past[past.length - 1].line === line;
    if (!continues) past.push({ text: before, line });
    lastEdit = isTyping ? now : 0;
    future = [];
    if (past.length > 500) past.shift();
    actions.edited(before.splice(line - 1, deleted, lines), cursor);
  }
  function undo(isRedo) {
    const [from, to] = isRedo ? [future, past] : [past, future], step = from.pop(), wasEditing = field !== null;
    if (!step) return;
    to.push({ text: text(), line: step.line });
    leave();
    lastEdit = 0;
    const line = Math.min(step.line, step.text.count);
    actions.edited(step.text, line);
    wasEditing ? edit(line, Infinity) : show(line);
  }
  function deleteChosen() {
    const { line } = store.state, from = Math.min(anchor || line, line), until = Math.max(anchor || line, line), deleted = until - from + 1;
    anchor = 0;
    replace(from, deleted, total() === deleted ? [''] : [], from);
    chooseAndSay(from);
  }
  box.addEventListener('keydown', event => {
    if (event.target !== box || !total()) return;
    const { line } = store.state, page = inSight() - 1;
    const to = { ArrowDown: line + 1, ArrowUp: line - 1, PageDown: line + page, PageUp: line - page, Home: 1, End: total() }[event.key];
    if (isCommand(event) && event.key.toLowerCase() === 'a') { anchor = 1; choose(total(), true); }
    else if (isCommand(event)) { keyWithControl(event); return; }
    else if (to !== undefined) chooseAndSay(to, event.shiftKey);
    else if ((event.key === 'Enter' || event.key === 'F2') && line) edit(line, Infinity);
    else if (event.key === 'Delete' && line) deleteChosen();
    else return;
    event.preventDefault();
  });
  box.addEventListener('copy', event => {
    const { line } = store.state;
    if (event.target !== box || field || !line) return;
    const lines = [];
    let bytes = 0;
    for (let at = Math.min(anchor || line, line); at <= Math.max(anchor || line, line); at++) {
      bytes += text().lengthOf(at - 1);
      if (bytes > COPIED) { actions.notice(`Only the first ${count(lines.length)} of these lines were copied: ${size(COPIED)} at most.`, 'bad'); break; }
      lines.push(text().line(at - 1));
    }
    event.clipboardData.setData('text/plain', `${lines.join('\n')}\n`);
    event.preventDefault();
  });

  // ---- the pointer

  function columnAt(row, x) {
    if (!width) {
      const probe = h('span', { class: 'code-text probe' }, 'X'.repeat(100));
      box.append(probe);
      width = probe.getBoundingClientRect().width / 100;
      probe.remove();
    }
    return Math.max(0, Math.round((x - row.querySelector('.code-text').getBoundingClientRect().left) / width));
  }
  rows.addEventListener('click', event => {
    const row = event.target.closest('.row'), line = Number(row?.dataset.line);
    if (!row || event.target.closest('input')) return;
    if (!event.shiftKey && !event.target.closest('.number')) return edit(line, columnAt(row, event.clientX));
    leave();
    choose(line, event.shiftKey);
    box.focus({ preventScroll: true });
  });
  const hover = hovered => { if (hovered !== store.state.hovered) store.dispatch({ type: 'set', values: { hovered } }); };
  rows.addEventListener('pointerover', event => {
    const row = event.target.closest('.row'), path = pathNow(store.state);
    if (!row || !path) return;
    let [command, to] = commandsOf(path, Number(row.dataset.line));
    while (command < to && !isMotion(path, command)) command++;
    hover(command < to ? command : -1);
  });
  rows.addEventListener('pointerleave', () => hover(-1));

  // ---- search

  function next(step) {
    const number = LINE_QUERY.exec(query.value);
    if (number) return chooseAndSay(Number(number[1]));
    if (!found.length) return;
    const from = found.findIndex(it => it >= store.state.line);
    hit = hit >= 0 ? (hit + step + found.length) % found.length : step > 0 ? Math.max(0, from) : found.length - 1;
    choose(found[hit]);
    hits.textContent = `${hit + 1} of ${found.length}`;
  }
  query.oninput = () => { hit = -1; store.dispatch({ type: 'set', values: { query: query.value } }); };
  query.onkeydown = event => {
    if (event.key === 'Enter') { event.preventDefault(); next(event.shiftKey ? -1 : 1); }
    if (event.key === 'Escape') { query.value = ''; query.oninput(); box.focus(); }
  };
  id('next').onclick = () => next(1);
  id('previous').onclick = () => next(-1);
  store.watch(state => [state.query, current(state, 'search'), isRunning(state, 'search'), failureOf(state, 'search')], (wanted, value, isWaiting, failure) => {
    if (query.value !== wanted) query.value = wanted;
    found = wanted && value ? [...value.lines] : [];
    foundSet = new Set(found);
    hits.textContent = !wanted || LINE_QUERY.test(wanted) ? '' : failure ? sentenceOfFailure(failure) : isWaiting ? '\u2026' : !value ? '' : value.count ? `${count(value.count)} found` : 'none';
    render();
    paintMarks();
  });

  // ---- notes on lines, and marks beside the scroll bar

  function paintMarks() {
    const all = [...[...notes].map(([line, it]) => [line, it.kind]), ...found.slice(0, MARKS).map(line => [line, 'hit'])].slice(0, MARKS);
    fill(marks, all.map(([line, kind]) => h('i', { class: kind, style: { top: `${(line - 0.5) / Math.max(1, total()) * 100}%` } })));
  }
  store.watch(state => [state.text, failureOf(state, 'index')], (shown, failure) => {
    id('line-count').textContent = shown ? plural(shown.count, 'line') : failure ? `The lines can't be shown. ${sentenceOfFailure(failure)}` : '';
    box.setAttribute('aria-label', shown ? `Part program, ${shown.count} lines. Arrow keys choose a line, Enter edits it.` : 'Part program');
    if (top > highest()) setTop(highest());
    render();
  });
  store.watch(state => [state.files.program?.base], () => { past = []; future = []; leave(); anchor = 0; setTop(0); });
  store.watch(state => [state.line, state.lineFrom], (line, from) => {
    if (from !== 'text') { anchor = line; if (line) show(line); }
    render();
  });
  return {
    setNotes(made) { notes = made; render(); paintMarks(); },
    edit, choose, undo, show, setTop, paint,
    get top() { return top; },
  };
}
