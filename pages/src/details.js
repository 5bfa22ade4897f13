// The selected entry: its text by its parts, with what it names as buttons, and the life of what was picked.
import { thingOf } from './names.js';
import { thingName, stateText, lifeOf, momentText } from './say.js';
import { element } from './element.js';

const MOST_NAMED = 12;

export class Details {
  constructor(page, picture, go) {
    this.page = page;
    this.picture = picture;
    this.go = go;
  }

  show() {
    const { picture, page } = this;
    const isAny = picture.entry >= 0;
    page.previous.disabled = !isAny || picture.entry === 0;
    page.next.disabled = !picture.log || picture.log.count === 0 || picture.entry >= picture.log.count - 1;
    page.selected.replaceChildren(...(isAny ? this.parts() : [element('p', { className: 'quiet', textContent: 'Nothing is selected. Click a bar or a mark, or use the arrow keys in the picture.' })]));
    if (isAny) page.live.textContent = this.announcement();
  }

  announcement() {
    const { picture } = this;
    const { thing, entry } = picture;
    const what = thing === null ? '' : `${thingName(thing)}, ${stateText(picture, thing, entry)}. `;
    return `${what}Entry ${entry + 1}: ${picture.log.line(entry)}`;
  }

  parts() {
    const { picture } = this;
    const { thing, entry, log } = picture;
    const found = [];
    if (thing !== null) {
      found.push(element('h3', { textContent: `${thingName(thing)}: ${stateText(picture, thing, entry)}` }));
      if (thing.how !== undefined || thing.places !== undefined) found.push(this.life(thing));
    }
    const isRead = picture.history.isRead[entry] === 1;
    found.push(element('h3', { textContent: `Entry ${entry + 1} of ${log.count}, ${isRead ? momentText(picture, entry) : 'not read'}` }));
    found.push(isRead ? this.text(log.parts(entry)) : element('pre', { textContent: log.line(entry) }));
    if (isRead) found.push(this.named());
    return found;
  }

  /** The connections and requests that the entry names, with what they are then. */
  named() {
    const { picture } = this;
    const list = element('ul', { className: 'named' });
    const things = [...picture.lit].filter((it) => it !== picture.thing && it.row !== undefined);
    for (const thing of things.slice(0, MOST_NAMED)) {
      const button = element('button', { type: 'button', className: 'link', textContent: thingName(thing), onclick: () => this.go(picture.entry, thing) });
      list.append(element('li', {}, button, `: ${stateText(picture, thing, picture.entry)}`));
    }
    return list;
  }

  life(thing) {
    const list = element('ol', { className: 'life' });
    for (const [words, entry] of lifeOf(this.picture, thing)) {
      const button = element('button', { type: 'button', className: 'link', textContent: words, onclick: () => this.go(entry, thing) });
      list.append(element('li', {}, button, element('span', { className: 'quiet', textContent: ` ${momentText(this.picture, entry)}` })));
    }
    return list;
  }

  text(parts) {
    const box = element('div', { className: 'entry' });
    for (const part of parts) {
      const row = element('div', { className: part.role });
      part.tokens.forEach((token, at) => row.append(at > 0 ? ' ' : '', this.token(token)));
      box.append(row);
    }
    return box;
  }

  token(token) {
    const thing = token.names === null ? null : thingOf(this.picture.history, token.names);
    if (thing === null) return token.text;
    return element('button', { type: 'button', className: 'name', title: thingName(thing), textContent: token.text, onclick: () => this.go(this.picture.entry, thing) });
  }
}
