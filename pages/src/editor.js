// Where a script is written: its lines with their numbers, the one that is wrong, and words that complete what was begun.
import { element } from './element.js';
import { hintAt, scriptHints } from './hints.js';

const LINE_HEIGHT = 20; // pixels

export class Editor {
  constructor(page, changed, moved) {
    this.page = page;
    this.moved = moved;
    this.count = 0;
    this.hints = scriptHints; // what may stand in the text
    page.script.addEventListener('input', () => {
      this.number();
      this.hint();
      changed();
    });
    page.script.addEventListener('scroll', () => this.scroll());
    page.script.addEventListener('keydown', (event) => this.key(event));
    document.addEventListener('selectionchange', () => document.activeElement === page.script && this.caretMoved());
  }

  get text() {
    return this.page.script.value;
  }

  set(text, hints) {
    this.hints = hints;
    this.page.script.value = text;
    this.page.script.setSelectionRange(0, 0);
    this.page.script.scrollTop = 0;
    this.number();
    this.hint();
  }

  /** The numbers of the lines, as many as there are. */
  number() {
    const count = this.text.split('\n').length;
    if (count !== this.count) this.page.numbers.textContent = Array.from({ length: count }, (_, at) => at + 1).join('\n');
    this.count = count;
    this.scroll();
  }

  scroll() {
    const { script, numbers } = this.page;
    numbers.style.transform = `translateY(${-script.scrollTop}px)`;
    for (const band of [this.page.wrongband, this.page.lineband]) band.style.transform = `translateY(${Number(band.dataset.line ?? 0) * LINE_HEIGHT - script.scrollTop}px)`;
  }

  /** Marks a line with a band of its own kind, or none where it is below zero. */
  band(band, line) {
    band.hidden = line < 0;
    band.dataset.line = line;
    this.scroll();
  }

  /** Marks the wrong line, { line, reason }, and says what is wrong with it. */
  mark(fault) {
    const { page } = this;
    const reason = fault === null ? '' : fault.reason;
    this.band(page.wrongband, fault === null ? -1 : fault.line);
    page.script.setAttribute('aria-invalid', String(fault !== null));
    if (page.wrong.textContent !== reason) page.wrong.textContent = reason;
  }

  /** The line of the selected entry. */
  follow(line) {
    this.band(this.page.lineband, line);
    const { script } = this.page;
    const top = line * LINE_HEIGHT;
    if (document.activeElement === script || line < 0) return;
    if (top < script.scrollTop || top + LINE_HEIGHT > script.scrollTop + script.clientHeight) script.scrollTop = top - script.clientHeight / 2;
  }

  lineOfCaret() {
    return this.text.slice(0, this.page.script.selectionStart).split('\n').length - 1;
  }

  caretMoved() {
    this.hint();
    this.moved(this.lineOfCaret());
  }

  hint() {
    const { page } = this;
    const place = page.script.selectionStart;
    this.now = hintAt(this.text, place, this.hints);
    const buttons = this.now.words.map((word) => {
      const button = element('button', { type: 'button', textContent: word.trim(), tabIndex: -1 });
      button.addEventListener('pointerdown', (event) => {
        event.preventDefault();
        this.complete(word);
      });
      return button;
    });
    page.hint.replaceChildren(element('code', { textContent: this.now.shape }), ...buttons);
  }

  /** Writes a word in place of what was begun of it; the browser can take it back. */
  complete(word) {
    const { script } = this.page;
    script.focus();
    const rest = word.slice(this.now.begun.length);
    if (!document.execCommand('insertText', false, rest)) {
      script.setRangeText(rest, script.selectionStart, script.selectionEnd, 'end');
      script.dispatchEvent(new Event('input'));
    }
  }

  key(event) {
    if (event.key !== ' ' || !event.ctrlKey || this.now.words.length === 0) return;
    event.preventDefault();
    this.complete(this.now.words[0]);
  }
}
