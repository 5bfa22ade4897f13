// Texts and bytes as letters that a page or an address may carry: base64 of gzip.

function bytesOf(text) {
  const plain = atob(text.replaceAll('-', '+').replaceAll('_', '/'));
  return Uint8Array.from(plain, (letter) => letter.charCodeAt(0));
}

const through = (bytes, stream) => new Response(new Blob([bytes]).stream().pipeThrough(stream));

/** What base64 of gzip has packed. */
export const unpacked = (text) => through(bytesOf(text), new DecompressionStream('gzip'));

/** A text as base64 of gzip, in letters that an address may have. */
export async function packedText(text) {
  const bytes = new Uint8Array(await through(new TextEncoder().encode(text), new CompressionStream('gzip')).arrayBuffer());
  const letters = Array.from(bytes, (it) => String.fromCharCode(it)).join('');
  return btoa(letters).replaceAll('+', '-').replaceAll('/', '_').replaceAll('=', '');
}
