// What web/build packs into the page to keep it small: the module and three.js, each as gzip in base64.

import { id } from './view/dom.js';

function unpacked(name) {
  const text = atob(id(name).textContent), packed = new Uint8Array(text.length);
  for (let at = 0; at < text.length; at++) packed[at] = text.charCodeAt(at);
  return new Response(new Blob([packed]).stream().pipeThrough(new DecompressionStream('gzip')));
}

export const compiledModule = async () => WebAssembly.compile(await unpacked('module').arrayBuffer());

export const libraryText = async () => unpacked('library').text();

// Runs the text of three.js, which makes the global THREE. The page's policy names the hash of this text, so the browser runs it as a script of
// the page, and no other text.
export function runLibrary(text) {
  const script = document.createElement('script');
  script.textContent = text;
  document.head.append(script);
  script.remove();
  if (!globalThis.THREE) throw new Error("three.js didn't run");
}
