// How a log comes in: picked, dropped, or in the fragment of the page's address.
import { Log, readLines } from './reader.js';
import { History } from './history.js';
import { RecordingLog, isRecording, readRecorded } from './recording.js';
import { packedText, unpacked } from './packing.js';

const PORTION = 25000; // lines that are read before the page may do other things

const rest = () => new Promise((resolve) => setTimeout(resolve, 0));

/** A text with its history, of which nothing is read yet, and what reads a part of it. `reader` reads a line of a log. */
function begun(name, text, reader) {
  const log = isRecording(text) ? new RecordingLog(name, text) : new Log(name, text);
  const history = new History(log.count);
  const take = (entry, parsed) => history.take(entry, parsed);
  const read = (from, to) => (log instanceof RecordingLog ? readRecorded(log, history, from, to) : readLines(log, from, to, take, reader));
  return { log, history, read };
}

function ended({ log, history }) {
  log.noteEnd();
  history.end();
  return { log, history };
}

/** Reads a text, and tells how far it is. */
export async function readText(name, text, progress) {
  const all = begun(name, text);
  const { count } = all.log;
  for (let from = 0; from < count; from += PORTION) {
    all.read(from, Math.min(from + PORTION, count));
    progress(Math.min(from + PORTION, count), count);
    await rest();
  }
  return ended(all);
}

/** Reads a text at once. */
export function readNow(name, text, reader) {
  const all = begun(name, text, reader);
  all.read(0, all.log.count);
  return ended(all);
}

/** A fragment that holds a text of this kind, and the words beside it. */
export async function fragmentOf(kind, text, words) {
  const whole = typeof CompressionStream === 'undefined' ? [kind, encodeURIComponent(text)] : ['gzip', await packedText(text)];
  return '#' + [...Object.entries(words).map(([name, value]) => [name, encodeURIComponent(value)]), whole].map((it) => it.join('=')).join('&');
}

/** The text of a fragment: #log=TEXT with percent escapes, where `log` is its kind, or #gzip=BASE64; `name`, `axis`, `entry` and `tab` may stand beside it. */
export async function fromFragment(fragment, kind = 'log') {
  const words = new Map(fragment.replace(/^#/, '').split('&').map((it) => [it.slice(0, it.indexOf('=')), it.slice(it.indexOf('=') + 1)]));
  const said = { name: decodeURIComponent(words.get('name') ?? `a ${kind} from the address`), axis: words.get('axis'), entry: words.get('entry'), tab: words.get('tab') };
  if (words.has(kind)) return { ...said, text: decodeURIComponent(words.get(kind)) };
  if (words.has('gzip')) return { ...said, text: await (await unpacked(words.get('gzip'))).text() };
  return null;
}

/** Files that are picked or dropped are handed on, the first of them. */
export function listen(page, button, open) {
  button.addEventListener('click', () => page.file.click());
  page.file.addEventListener('change', () => {
    if (page.file.files.length > 0) open(page.file.files[0]);
    page.file.value = '';
  });
  const over = (event) => {
    event.preventDefault();
    document.body.classList.toggle('dropping', event.type === 'dragover');
  };
  for (const name of ['dragover', 'dragleave', 'drop']) document.addEventListener(name, over);
  document.addEventListener('drop', (event) => {
    if (event.dataTransfer.files.length > 0) open(event.dataTransfer.files[0]);
  });
}
