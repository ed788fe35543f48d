// What is kept for the next visit: the user's own machine file and tool table, the machine's margins and control, and the colours. Each
// byte is kept as a character, since not every file is text. Without storage the page works, and keeps nothing.

import { NO_DEMANDS, demandsIn, hasDemands } from './changes.js';
import { controlIn } from './controls.js';

const MOST = 1 << 20;   // bytes

export function keepFile(kind, name, bytes) {
  if (bytes.length > MOST) return;
  try { localStorage.setItem(`ngc ${kind}`, JSON.stringify([name, Array.from(bytes, byte => String.fromCharCode(byte)).join('')])); } catch { /* Nothing is kept. */ }
}
export function keptFile(kind) {
  try {
    const [name, text] = JSON.parse(localStorage.getItem(`ngc ${kind}`));
    if (typeof name === 'string' && typeof text === 'string') return { name, bytes: Uint8Array.from(text, it => it.charCodeAt(0)) };
  } catch { /* Nothing is kept, or nothing that can be read. */ }
  return null;
}
export function keepDemands(demands) {
  try { hasDemands(demands) ? localStorage.setItem('ngc demands', JSON.stringify(demands)) : localStorage.removeItem('ngc demands'); } catch { /* Nothing is kept. */ }
}
export function keptDemands() { try { return demandsIn(JSON.parse(localStorage.getItem('ngc demands'))); } catch { return NO_DEMANDS; } }
export function keepControl(control) {
  try { control ? localStorage.setItem('ngc control', control) : localStorage.removeItem('ngc control'); } catch { /* Nothing is kept. */ }
}
export function keptControl() { try { return controlIn(localStorage.getItem('ngc control')); } catch { return null; } }
export function keepTheme(theme) { try { localStorage.setItem('ngc theme', theme); } catch { /* Nothing is kept. */ } }
export function keptTheme() {
  try { const theme = localStorage.getItem('ngc theme'); return ['dark', 'light'].includes(theme) ? theme : 'auto'; } catch { return 'auto'; }
}
