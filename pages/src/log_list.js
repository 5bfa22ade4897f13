// The log of a script as a list: an entry a row, of which only those in view are in the page.
import { element } from './element.js';
import { JumpList } from './lists.js';

const ROW_HEIGHT = 20; // pixels
const MOST_SHOWN = 600; // characters of a row

export class LogList extends JumpList {
  constructor(box, go) {
    super(box, 'Log', go, { row: ROW_HEIGHT, most: Infinity });
  }

  follow(entry) {
    super.follow(entry);
    if (this.active >= 0) this.reveal(this.active);
  }

  row(at) {
    const row = this.frame(at);
    const parts = this.items[at].text.slice(0, MOST_SHOWN).split(' | ');
    const { entry } = this.items[at];
    row.append(element('span', { className: 'number', textContent: entry < 0 ? '' : String(entry + 1) }));
    parts.forEach((part, place) => {
      row.append(place > 0 ? element('i', { textContent: ' | ' }) : ' ', place < 2 ? element('b', { className: ['step', 'reply'][place], textContent: part }) : part);
    });
    return row;
  }
}
