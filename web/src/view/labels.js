// Labels of the picture: HTML over the canvas, so they keep their size and stay sharp.

import { fill, h } from './dom.js';

const HIGH = 18, RAISED = 22;   // points
const ABOVE = ['hit', 'touch'];   // labels that leave their point to be seen

export function makeLabels(holder) {
  let labels = [];
  return {
    set(made) {
      labels = made;
      fill(holder, labels.map(label => (label.element = h('div', { class: `tag ${label.kind}` }, label.text))));
    },
    // Puts each label at its point, unless it would cover one before it.
    place(camera, width, height) {
      const taken = [], onScreen = at => { const it = new THREE.Vector3(...at).project(camera); return [(it.x + 1) * width / 2, (1 - it.y) * height / 2]; };
      const isIn = ([x, y]) => x > 0 && x < width && y > 0 && y < height;
      for (const { at, ends = [], kind, text, element } of labels) {
        const [x, base] = onScreen(at), y = ABOVE.includes(kind) ? base - RAISED : base, wide = text.length * 7 + 10;
        // The length of an axis is shown only where the whole axis is seen.
        const isShown = isIn([x, base]) && ends.every(end => isIn(onScreen(end)));
        const isFree = kind === 'hit' || !taken.some(it => Math.abs(it.x - x) < (it.wide + wide) / 2 && Math.abs(it.y - y) < HIGH);
        element.style.visibility = isShown && isFree ? 'visible' : 'hidden';
        if (!isShown || !isFree) continue;
        taken.push({ x, y, wide });
        element.style.transform = `translate(${Math.round(x)}px, ${Math.round(y)}px) translate(-50%, -50%)`;
      }
    },
  };
}
