// Changes of the texts of a machine file and a tool table, and the command line that makes a machine file of figures.

const HEAD = /^[ \t]*\[\[[ \t]*fixture[ \t]*\]\].*$/gm;
const row = corner => `[${corner.join(', ')}]`;
const versionOf = text => Number(/^[ \t]*version[ \t]*=[ \t]*(\d+)/m.exec(text)?.[1] ?? 1);
const added = (text, table) => `${text.replace(/\n*$/, '\n')}\n${table}`;
const named = name => (name ? `name = ${JSON.stringify(name)}\n` : '');

// Version 3 has texts with units. A whole number of nanometres divided by a million has at most six decimals, which JavaScript prints exactly.
const length = nanometres => `"${nanometres / 1e6} mm"`, place = corner => `"${corner.map(it => it / 1e6).join(', ')} mm"`;
const SYSTEMS = ['G54', 'G55', 'G56', 'G57', 'G58', 'G59', 'G59.1', 'G59.2', 'G59.3'];
// The corners of a box. In version 3 a system has its name.
const corners = (version, { system, low, high }) => (version === 3
  ? `${system ? `in = "${SYSTEMS[system - 1]}"\n` : ''}from = ${place(low)}\nto = ${place(high)}\n`
  : `${system ? `system = ${system}\n` : ''}low = ${row(low)}\nhigh = ${row(high)}\n`);

export function withFixture(text, { name, low, high }) {
  const version = versionOf(text);
  // Version 1 has no names.
  return added(text, `[[fixture]]\n${version > 1 ? named(name) : ''}${corners(version, { low, high })}`);
}

// The text without a table of this name: from its head to before the next one. A table as `[[tool.holder]]` belongs to the one above it.
function withoutTable(text, name, head) {
  if (!head) return text;
  const rest = text.slice(head.index + head[0].length), end = rest.search(new RegExp(`^[ \\t]*\\[(?!\\[?[ \\t]*${name}[ \\t]*\\.)`, 'm'));
  return text.slice(0, head.index) + (end < 0 ? '' : rest.slice(end));
}
// The text without a fixture. `number` counts from 0.
export const withoutFixture = (text, number) => withoutTable(text, 'fixture', [...text.matchAll(HEAD)][number]);

const TOOL = /^[ \t]*\[\[[ \t]*tool[ \t]*\]\].*$/gm;
export const hasParts = text => versionOf(text) > 1;
export const hasShapes = text => versionOf(text) === 3;
export const NEW_TABLE = 'version = 3\n';
// A tool with its parts from the tip up: the cutter, and a holder if it has one. Version 1 has one part and no names, and only version 3 has shapes
// of cutters. G43 adds the reach, as usual.
const tables = {
  1: ({ reach, parts }) => `length = ${reach}\nradius = ${parts[0].radius}\noffset = ${reach}\n`,
  2: ({ name, reach, parts }) => `offset = ${reach}\nbottom = ${-reach}\n${named(name)}parts = [\n${parts.map(it => `    { length = ${it.length}, radius = ${it.radius} },\n`).join('')}]\n`,
  3: ({ name, shape, reach, parts: [cutter, holder] }) => `${named(name)}diameter = ${length(2 * cutter.radius)}\nlength = ${length(reach)}\n${holder ? `holder = [{ diameter = ${length(2 * holder.radius)}, length = ${length(holder.length)} }]\n` : ''}${shape ? `cutter = "${shape}"\n` : ''}`,
};
// The text with one more tool: its number, its name, the shape of its cutter or an empty text, its reach below the spindle nose, and its parts from
// the tip up, each with a length and a radius.
export const withTool = (text, tool) => added(text, `[[tool]]\nnumber = ${tool.number}\n${(tables[versionOf(text)] ?? tables[1])(tool)}`);
// The text without a tool. `at` is its place in the table, from 0.
export const withoutTool = (text, at) => withoutTable(text, 'tool', [...text.matchAll(TOOL)][at]);

const STOCK = /^[ \t]*\[[ \t]*stock[ \t]*\].*$/m;
// The text with this block of material in place of another one. Version 1 has none.
export const withStock = (text, stock) => added(withoutStock(text), `[stock]\n${corners(versionOf(text), stock)}`);
export const withoutStock = text => withoutTable(text, 'stock', STOCK.exec(text));
export const hasStock = text => versionOf(text) > 1;

const number = value => String(Math.round(value * 1000) / 1000);
const option = (name, value) => (value === null ? [] : [`--${name}=${[value].flat().map(number).join(',')}`]);

// The words of `ngc machine` for these figures. What is null is as the program chooses.
export const wordsOfFigures = ({ steps, travel, feed, acceleration, corner, jump, ring, isHigh }) => ['machine', ...option('steps-per-mm', steps), ...option('travel', travel), ...option('feed', feed),
  ...option('acceleration', acceleration), ...option('corner', corner), ...option('jump', jump), ...option('ring', ring), ...(isHigh ? ['--frame=high'] : [])];
