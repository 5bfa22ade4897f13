// The timeline of a log with its lists, its search and its keys: what every page has that draws one.
import { Picture } from './picture.js';
import { Details } from './details.js';
import { JumpList } from './lists.js';
import { search } from './search.js';
import { Input } from './input.js';
import { rowPlace } from './layout.js';
import { thingName, stateText } from './say.js';
import { showFigures, showSums } from './figures.js';
import { durationText } from './scale.js';
import { pictureFile } from './picture_file.js';
import { saved } from './saving.js';
import { followThemes } from './themes.js';

const SIGNS = { clear: '▼', raise: '▿', refusal: '✕', error: '◆', 'void error': '◇', 'failed check': '▽' };
const NOT_WRITTEN = new Set(['checkbox', 'radio', 'button', 'file', 'range']);

/** Whether a key pressed here is a letter of a text. */
export function isWriting(event) {
  const at = event.target;
  return at instanceof HTMLTextAreaElement || at instanceof HTMLSelectElement || (at instanceof HTMLInputElement && !NOT_WRITTEN.has(at.type));
}

export class View {
  constructor(page) {
    this.page = page;
    this.picture = new Picture(page);
    this.details = new Details(page, this.picture, (entry, thing) => this.go(entry, thing));
    this.jumps = new JumpList(page.jumps, 'Clears, refusals and errors', (item) => this.go(item.entry, null));
    this.found = new JumpList(page.found, 'Found', (item) => this.go(item.entry, item.thing));
    this.unread = new JumpList(page.unread, 'Lines that could not be read', (item) => this.go(item.entry, null));
    this.lists = [this.jumps, this.found, this.unread];
    this.input = new Input(page, this.picture, this);
    this.followers = []; // who wants to hear which entry is selected
    this.keys = {}; // further keys of the page
    this.bind();
  }

  bind() {
    const { page, picture } = this;
    page.axistime.addEventListener('change', () => this.setAxis('time'));
    page.axisentries.addEventListener('change', () => this.setAxis('entries'));
    page.closer.addEventListener('click', () => picture.log && picture.zoom(1.5));
    page.wider.addEventListener('click', () => picture.log && picture.zoom(1 / 1.5));
    page.fit.addEventListener('click', () => picture.log && picture.fit());
    page.bars.addEventListener('click', () => this.toggleBars());
    page.mark.addEventListener('click', () => this.mark());
    page.onlyserver.addEventListener('change', () => this.filterBy({ address: page.onlyserver.value }));
    page.onlyfailed.addEventListener('change', () => this.filterBy({ isFailed: page.onlyfailed.checked }));
    page.png.addEventListener('click', () => this.savePicture());
    page.keys.addEventListener('click', () => page.help.showModal());
    page.previous.addEventListener('click', () => this.step(-1));
    page.next.addEventListener('click', () => this.step(1));
    page.search.addEventListener('input', () => this.search(false));
    page.searching.addEventListener('submit', (event) => {
      event.preventDefault();
      this.search(true);
    });
    for (const box of page.kinds.querySelectorAll('input')) box.addEventListener('change', () => this.showJumps());
    document.addEventListener('keydown', (event) => this.key(event));
    new ResizeObserver(() => this.resize()).observe(page.scroll);
    followThemes(page.themes, () => this.resize());
  }

  /** Draws anew, where the picture is in sight. */
  resize() {
    if (this.picture.log && this.page.scroll.offsetWidth > 0) this.picture.resize();
  }

  /** Draws another log, or one that was changed a little. */
  show(log, history, isChanged = false) {
    document.body.classList.add('opened');
    if (isChanged && this.picture.log) this.picture.change(log, history);
    else this.picture.show(log, history);
    this.showAxis();
    this.showJumps();
    this.showUnread();
    this.showNumbers();
    this.showFilter();
    this.page.search.value = '';
    this.search(false);
    this.details.show();
    this.picture.paint();
  }

  setAxis(axis) {
    if (!this.picture.log) return;
    this.picture.setAxis(axis);
    this.showAxis();
  }

  showAxis() {
    this.page.axistime.checked = this.picture.scale.axis === 'time';
    this.page.axisentries.checked = this.picture.scale.axis === 'entries';
  }

  toggleBars() {
    this.picture.areBarsShown = !this.picture.areBarsShown;
    this.page.bars.setAttribute('aria-pressed', String(this.picture.areBarsShown));
    if (this.picture.log) this.picture.arrange();
  }

  showJumps() {
    const boxes = [...this.page.kinds.querySelectorAll('input')];
    const wanted = new Set(boxes.filter((it) => it.checked).map((it) => it.value));
    const kindOf = (kind) => ({ 'void error': 'error', raise: 'clear' }[kind] ?? kind);
    const jumps = this.picture.history?.jumps ?? [];
    const count = (kind) => jumps.filter((it) => it.kind === kind).length;
    for (const box of boxes) {
      const again = box.value === 'clear' && count('raise') > 0 ? ` (${count('raise')} more raised)` : '';
      box.nextElementSibling.textContent = `${box.dataset.name} ${box.value === 'error' ? count('error') + count('void error') : count(box.value)}${again}`;
    }
    this.jumps.show(jumps.filter((it) => wanted.has(kindOf(it.kind))).map((it) => ({ ...it, sign: SIGNS[it.kind], label: '#' + (it.entry + 1) })));
  }

  /** The lengths and sums, and the time between the marks. */
  showNumbers() {
    const { history } = this.picture;
    showFigures(this.page.figures, history, (entry) => this.go(entry, null));
    showSums(this.page.sums, history);
    this.showMarks();
  }

  showFilter() {
    const { page, picture } = this;
    const addresses = [...picture.history.servers.keys()];
    page.onlyserver.replaceChildren(new Option('all servers', ''), ...addresses.map((it) => new Option(it, it)));
    page.onlyserver.value = addresses.includes(picture.filter.address) ? picture.filter.address : '';
    page.onlyfailed.checked = picture.filter.isFailed;
  }

  filterBy(words) {
    if (!this.picture.log) return;
    Object.assign(this.picture.filter, words);
    this.picture.arrange();
  }

  /** Marks the selected entry, and tells the time between two that are marked. */
  mark() {
    const { picture } = this;
    if (!picture.log || picture.entry < 0) return;
    picture.mark(picture.entry);
    this.showMarks();
  }

  showMarks() {
    const { history, marks } = this.picture;
    const [from, to] = marks;
    const names = marks.map((it, at) => `${'AB'[at]} is entry ${it + 1}`).join(', ');
    this.page.between.textContent = to === undefined ? names : `${names}: ${durationText(history.moments[to] - history.moments[from])}, ${to - from} ${to - from === 1 ? 'entry' : 'entries'} apart`;
  }

  async savePicture() {
    const { page, picture } = this;
    if (!picture.log) return;
    const file = await pictureFile(picture, page.space.offsetHeight);
    if (file !== null) saved(picture.log.name.replace(/\.\w+$/, '') + '.png', file);
  }

  showUnread() {
    const { page } = this;
    const { unread } = this.picture.log;
    page.complaint.hidden = unread.length === 0;
    page.complaintcount.textContent = unread.length === 0 ? '' : `${unread.length} ${unread.length === 1 ? 'line' : 'lines'} could not be read as an entry. All else is drawn.`;
    this.unread.show(unread.map((it) => ({ entry: it.line, label: 'line ' + (it.line + 1), text: it.why })));
  }

  search(isGoing) {
    const { page } = this;
    if (!this.picture.log) return;
    const found = search(this.picture, page.search.value);
    this.found.show(found);
    page.foundbox.hidden = page.search.value.trim() === '';
    page.foundcount.textContent = `${found.length} found`;
    if (isGoing && found.length > 0) this.found.pick(0);
  }

  /** Selects an entry with the thing that it is about, and brings both into view. */
  go(entry, thing, isRevealed = true) {
    const { picture } = this;
    if (!picture.log || entry < 0 || entry >= picture.log.count) return;
    picture.select(entry, thing);
    for (const list of this.lists) list.follow(entry);
    for (const follower of this.followers) follower(entry);
    if (isRevealed) {
      picture.reveal();
      this.revealThing(thing);
    }
    this.details.show();
  }

  revealThing(thing) {
    const { picture } = this;
    if (thing === null) return;
    const lane = picture.lanes.find((it) => (thing.sizes !== undefined ? it.kind === 'pool' && it.pool === thing : it.kind === 'server' && it.server === thing));
    const kind = thing.places !== undefined ? 'connections' : 'requests';
    const at = thing.row !== undefined ? rowPlace(picture.lanes, kind, thing) : lane;
    if (at) picture.revealHeight(at.y, at.height);
  }

  step(by) {
    const { picture } = this;
    if (picture.log && picture.log.count > 0) this.go(Math.min(Math.max(picture.entry + by, 0), picture.log.count - 1), null);
  }

  tip(found, event) {
    const { page, picture } = this;
    const stop = found === null ? null : found.stop;
    page.tip.hidden = stop === null;
    if (stop === null) return;
    const what = stop.said ? `${stop.said}\n` : stop.thing === null ? '' : `${thingName(stop.thing)}: ${stateText(picture, stop.thing, picture.scale.entryAt(found.place))}\n`;
    page.tip.textContent = what + `entry ${stop.entry + 1}: ${picture.log.line(stop.entry).split(' | ').slice(0, 2).join(' | ').slice(0, 120)}`;
    page.tip.style.left = Math.min(event.clientX + 14, window.innerWidth - page.tip.offsetWidth - 8) + 'px';
    page.tip.style.top = Math.min(event.clientY + 16, window.innerHeight - page.tip.offsetHeight - 8) + 'px';
  }

  /** The next or the last entry of the list of clears, refusals and errors. */
  jump(by) {
    const { picture } = this;
    const items = this.jumps.items;
    const at = by > 0 ? items.findIndex((it) => it.entry > picture.entry) : items.findLastIndex((it) => it.entry < (picture.entry < 0 ? Infinity : picture.entry));
    if (at >= 0) this.jumps.pick(at);
  }

  /** Keys of the whole page, but where a text is written. */
  key(event) {
    const { page } = this;
    if (event.key === 'Escape' && event.target === page.search) page.scroll.focus();
    if (isWriting(event) || event.ctrlKey || event.metaKey || event.altKey || page.help.open) return;
    const act = {
      '/': () => page.search.focus(), t: () => this.setAxis(this.picture.scale?.axis === 'time' ? 'entries' : 'time'),
      m: () => this.mark(), n: () => this.jump(1), p: () => this.jump(-1), v: () => this.toggleBars(), '?': () => page.help.showModal(), l: () => page.scroll.focus(),
      Escape: () => this.clear(), ...this.keys,
    }[event.key];
    if (act === undefined) {
      this.input.key(event);
      return;
    }
    event.preventDefault();
    act();
  }

  clear() {
    this.picture.select(-1, null);
    this.details.show();
  }
}
