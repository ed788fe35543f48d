// A STAND-IN: reads the text of `ngc show` into what is drawn: travel, fixtures, material, tools, origins and rates, and the language of its programs. So
// the page shows what the proved code read from the files. The module doesn't print the sheet as facts yet. When it does, this file goes.

import { dialectOf } from '../core/controls.js';
import { AXES } from '../core/systems.js';

const KEY = 24;   // where the value of a line begins
const numbers = text => [...text.matchAll(/-?\d+(?:\.\d+)?/g)].map(Number);
const speed = text => numbers(text)[0] / 60;
const acceleration = text => Math.max(numbers(text)[0], 0.001);

// What each line of the machine's part says. `axis` is that of the key's last letter.
function readMachine(scene, key, value, axis) {
  const { rates } = scene;
  if (key.startsWith('travel on')) [scene.low[axis], scene.high[axis]] = numbers(value);
  else if (key.startsWith('speed of')) rates.speeds[axis] = speed(value);
  else if (key === 'speed at corners') rates.corner = speed(value);
  else if (key === 'acceleration') rates.accelerations.fill(acceleration(value));
  else if (key.startsWith('acceleration of')) rates.accelerations[axis] = acceleration(value);
  else if (key === 'acceleration on arcs') rates.arcAcceleration = acceleration(value);
  else if (key === 'start') scene.start = numbers(value);
  else if (key === 'step' || key === 'step of the path') [scene.step] = numbers(value);
  else if (key.startsWith('origin of')) scene.origins[key.slice(10)] = numbers(value);
  else if (key === 'language of programs') scene.dialect = dialectOf(value);
  else if (key === 'material') scene.stock = stockOf(value);
}
// `X 0 Y 0 Z -20 mm to X 100 Y 60 Z 0 mm in G54`, or `in machine coordinates`.
function stockOf(value) {
  const [corners, where] = value.split(' mm in '), ends = numbers(corners);
  return { low: ends.slice(0, 3), high: ends.slice(3), system: /^G/.test(where) ? where : null };
}
function readTool(tool, key, value) {
  if (key === 'length offset') [tool.offset] = numbers(value);
  if (key === 'cutter') tool.cutter = value;
  if (key !== 'part') return;
  const [low, high] = numbers(value);
  tool.parts.push({ low, high, radius: Number(/diameter (-?[\d.]+) mm/.exec(value)[1]) / 2 });
  tool.bottom = Math.min(tool.bottom, low);
}

// Lengths are millimetres, speeds millimetres a second.
export function readSheet(text) {
  const scene = { low: [0, 0, 0], high: [0, 0, 0], start: [0, 0, 0], origins: {}, fixtures: [], tools: [], warnings: [], step: 0.01, dialect: null, stock: null,
    rates: { speeds: [40, 40, 40], corner: 5, accelerations: [1000, 1000, 1000], arcAcceleration: 1000 } };
  let section = '', now = null;
  for (const line of text.split('\n')) {
    const head = /^(machine|fixture|tool)(?: (\d+))?(?: \((.*)\))?$/.exec(line);
    if (head) {
      section = head[1];
      now = { number: Number(head[2]), name: head[3] ?? '' };
      if (section === 'fixture') scene.fixtures.push(Object.assign(now, { low: [0, 0, 0], high: [0, 0, 0] }));
      if (section === 'tool') scene.tools.push(Object.assign(now, { offset: 0, cutter: '', parts: [], bottom: 0 }));
      continue;
    }
    const key = line.slice(0, KEY).trim(), value = line.slice(KEY).trim(), axis = AXES.indexOf(key.slice(-1));
    if (line.includes('warning: ')) scene.warnings.push(line.replace(/^\s*warning: /, ''));
    else if (section === 'machine') readMachine(scene, key, value, axis);
    else if (section === 'fixture' && axis >= 0) [now.low[axis], now.high[axis]] = numbers(value);
    else if (section === 'tool') readTool(now, key, value);
  }
  return scene;
}
