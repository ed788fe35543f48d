// Makes elements. Texts of files only ever become text nodes.

const isShown = it => it !== null && it !== undefined && it !== false;

// An element with values: `class`, handlers as `onclick`, `style` as an object, properties that aren't texts, and attributes.
export function h(tag, values = {}, ...children) {
  const element = document.createElement(tag);
  for (const [key, value] of Object.entries(values).filter(([, value]) => isShown(value))) {
    if (key === 'class') element.className = value;
    else if (key.startsWith('on')) element[key] = value;
    else if (key === 'style') Object.entries(value).forEach(([name, it]) => element.style.setProperty(name, it));
    else if (key in element && typeof value !== 'string') element[key] = value;
    else element.setAttribute(key, value === true ? '' : value);
  }
  element.append(...children.flat(Infinity).filter(isShown));
  return element;
}
export const id = name => document.getElementById(name);
export function fill(element, ...children) {
  element.replaceChildren(...children.flat(Infinity).filter(isShown));
  return element;
}

// A table with a caption. The first cell of each row is its heading.
export const table = (caption, heads, rows) => h('table', {}, h('caption', {}, caption),
  h('thead', {}, h('tr', {}, heads.map(it => h('th', { scope: 'col' }, it)))),
  h('tbody', {}, rows.map(row => h('tr', {}, row.map((cell, at) => (at ? h('td', {}, cell) : h('th', { scope: 'row' }, cell)))))));
