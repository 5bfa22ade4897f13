// Tabs, of which one is open: by a pointer, or by arrow keys, as such lists go.
import { element } from './element.js';

export class TabList {
  constructor(box, tabs, turn) {
    this.buttons = new Map(tabs.map(({ id, name }) => [id, element('button', { type: 'button', id: `tab-${id}`, textContent: name })]));
    this.turn = turn;
    for (const [id, button] of this.buttons) {
      button.setAttribute('role', 'tab');
      button.setAttribute('aria-controls', 'work');
      button.addEventListener('click', () => turn(id));
    }
    box.append(...this.buttons.values());
    box.addEventListener('keydown', (event) => this.key(event));
  }

  show(open) {
    this.open = open;
    for (const [id, button] of this.buttons) {
      button.setAttribute('aria-selected', String(id === open));
      button.tabIndex = id === open ? 0 : -1;
    }
  }

  key(event) {
    const ids = [...this.buttons.keys()];
    const at = ids.indexOf(this.open);
    const next = { ArrowRight: at + 1, ArrowLeft: at - 1, Home: 0, End: ids.length - 1 }[event.key];
    if (next === undefined) return;
    event.preventDefault();
    event.stopPropagation();
    const id = ids[(next + ids.length) % ids.length];
    this.turn(id);
    this.buttons.get(id).focus();
  }
}
