// The examples that are built into the page.

const texts = JSON.parse(document.getElementById('examples').textContent);
export const EXAMPLE_MACHINE = { machine: 'named_mill.toml', tools: 'tools.toml' };
export const exampleBytes = name => new TextEncoder().encode(texts[name]);
