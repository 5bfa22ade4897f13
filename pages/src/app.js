// The page of the timeline: how a log comes in, and what is said of it.
import { View } from './view.js';
import { readText, fromFragment, fragmentOf, listen } from './opening.js';
import { copied } from './saving.js';
import { answerScripts } from './answers.js';

const page = Object.fromEntries([...document.querySelectorAll('[id]')].map((it) => [it.id, it]));

const MOST_LINK = 1_500_000; // letters; browsers take an address of two million

class App {
  constructor() {
    this.view = new View(page);
    this.view.keys.o = () => page.file.click();
    listen(page, page.pick, async (file) => this.open(file.name, await file.text()));
    page.link.addEventListener('click', () => this.copyLink());
    page.example.addEventListener('click', () => this.openExample());
    window.addEventListener('hashchange', () => this.openFragment());
  }

  get picture() {
    return this.view.picture;
  }

  async openFragment() {
    const said = await fromFragment(location.hash).catch((fault) => this.tell(`The address holds no log that can be read: ${fault.message}`));
    if (!said) return;
    await this.open(said.name, said.text);
    if (said.axis === 'time' || said.axis === 'entries') this.view.setAxis(said.axis);
    const entry = Number(said.entry) - 1;
    if (entry >= 0 && entry < this.picture.log.count) this.view.go(entry, null);
  }

  openExample() {
    const [name, text] = Object.entries(JSON.parse(page.logs.textContent))[0];
    return this.open(name, text);
  }

  /** A link to the log, to the entry that is selected in it. */
  async copyLink() {
    const { log, entry, scale } = this.picture;
    if (!log) return;
    const fragment = await fragmentOf('log', log.text, { name: log.name, axis: scale.axis, ...(entry >= 0 ? { entry: entry + 1 } : {}) });
    this.tell(fragment.length > MOST_LINK ? 'The log is too long for a link.' : await copied(fragment));
  }

  async open(name, text) {
    const started = performance.now();
    this.tell(`Reading ${name} ..`);
    const { log, history } = await readText(name, text, (done, count) => this.tell(`Reading ${name}: ${done} of ${count} lines`));
    document.title = name + ' · Timeline';
    this.view.show(log, history);
    this.summarize();
    page.scroll.focus({ preventScroll: true });
    this.opened = { milliseconds: performance.now() - started, name };
  }

  tell(words) {
    page.summary.textContent = words;
  }

  summarize() {
    const { log, history } = this.picture;
    const { created, grants } = history.tallies;
    const plural = (count, one, more) => `${count} ${count === 1 ? one : more}`;
    const entries = plural(history.tallies.entries, 'entry', 'entries') + (log.unread.length > 0 ? ` in ${plural(log.count, 'line', 'lines')}` : '');
    this.tell([log.name, entries, plural(history.servers.size, 'server', 'servers'), plural(created, 'connection', 'connections'),
      plural(grants, 'grant', 'grants')].join(' · '));
  }
}

const app = new App();

answerScripts(app, page);
app.openFragment();
