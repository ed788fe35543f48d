// The control that a program is for: the choice beside the program's name, and the question that is asked once.

import { CONTROLS, OWN } from '../core/controls.js';
import { asksNow, languageNow } from '../core/shown.js';
import { fill, h, id } from './dom.js';

const LANGUAGES = { [OWN]: 'no control', ...CONTROLS };

// The choice as an element. Examples and rewritten programs are in our own language, so they have none.
export function makeChoice(store, actions) {
  const choice = h('select', { id: 'language', 'aria-label': 'Control that the program is for', title: 'Control whose language the program is read in', autocomplete: 'off', onchange: () => actions.setControl(choice.value) },
    Object.entries(LANGUAGES).map(([value, name]) => h('option', { value }, name)));
  store.watch(state => [state.files.program?.isOwn, languageNow(state)], (isOwn, language) => {
    choice.value = language ?? OWN;
    choice.disabled = choice.hidden = Boolean(isOwn);
  });
  return choice;
}

export function makeQuestion(store, actions) {
  const words = id('ask-words'), choices = id('ask-choices');
  store.watch(state => [asksNow(state), state.files.program?.sign], (asks, sign) => {
    // A live region says what it has now, so it is filled and never hidden.
    words.textContent = asks ? `${sign ? `It looks like a program for ${CONTROLS[sign]}. ` : ''}Which control is the program for?` : '';
    fill(choices, asks ? Object.entries(CONTROLS).map(([value, name]) => h('button', { class: `small${value === sign ? ' strong' : ''}`, type: 'button', onclick: () => actions.setControl(value) }, name)) : null,
      asks ? h('button', { class: 'small', type: 'button', onclick: () => actions.setControl(OWN) }, 'None of them') : null);
  });
}
