// The modules of WebAssembly that a page carries, packed, and what is said of them.
import { unpacked } from './packing.js';

/** The bytes of a module, or an error that says what the browser lacks. */
export async function unpackedModule(page, name) {
  if (typeof WebAssembly === 'undefined') throw new Error('this browser has no WebAssembly');
  if (typeof DecompressionStream === 'undefined') throw new Error('this browser cannot unpack the library (it has no DecompressionStream)');
  return (await unpacked(JSON.parse(page.modules.textContent)[name])).arrayBuffer();
}

/** Of what a module was made, and what in it is the repository's. */
export function aboutText(page, name, parts) {
  const { commit, changed, proved, compiler, lowered } = JSON.parse(page.made.textContent)[name];
  const state = proved ? 'proved' : 'not proved';
  return `All is done in this page, by ${parts} of commit ${commit.slice(0, 12)}${changed ? ', changed,' : ''} (${state}), as ${compiler} compiled it and binaryen (${lowered}) lowered it: no proof covers these two. Nothing is sent.`;
}
