// The page that runs a script or a program as one writes its text: what it answers, and the timeline of that.
import { View, isWriting } from './view.js';
import { Editor } from './editor.js';
import { LogList } from './log_list.js';
import { Library } from './library.js';
import { Program } from './programs.js';
import { TABS, tabOf } from './tabs.js';
import { TabList } from './tab_list.js';
import { unpackedModule, aboutText } from './modules.js';
import { readNow, fromFragment, fragmentOf, listen } from './opening.js';
import { saved, copied } from './saving.js';
import { keepingReader } from './reader.js';
import { element } from './element.js';
import { answerScripts } from './answers.js';

const page = Object.fromEntries([...document.querySelectorAll('[id]')].map((it) => [it.id, it]));
const MOST_KEPT = 20000; // lines of logs that were read
const WARM = 20; // runs of the first script, so that a browser has compiled what a key asks for
const JUDGED_AFTER = 250; // milliseconds after the last key, before the log of a script is judged
const PROGRAMS = ['mdb_auditor', 'mdb_recorded', 'mdb_fleet', 'mdb_proxy'];

class Playground {
  constructor() {
    this.view = new View(page);
    this.log = new LogList(page.log, (item) => this.go(item.entry));
    this.view.lists.push(this.log);
    this.view.followers.push((entry) => this.follow(entry));
    this.editor = new Editor(page, () => this.changed(), (line) => this.toLine(line));
    this.examples = JSON.parse(page.scripts.textContent);
    this.texts = {}; // of each tab that was open, its name and text
    this.name = '';
    this.tab = 'script';
    this.result = { rows: [] };
    this.output = '';
    this.reader = keepingReader(MOST_KEPT);
    this.tabs = new TabList(page.tabs, Object.entries(TABS).map(([id, { name }]) => ({ id, name })), (tab) => this.turnTo(tab));
    this.bind();
  }

  get picture() {
    return this.view.picture;
  }

  get plan() {
    return TABS[this.tab];
  }

  bind() {
    const step = (by) => () => this.step(by);
    for (const [name, act] of [['first', step(-Infinity)], ['back', step(-1)], ['forth', step(1)], ['last', step(Infinity)]]) page[name].addEventListener('click', act);
    page.examples.addEventListener('change', () => this.open(page.examples.value, this.examples[page.examples.value]));
    page.link.addEventListener('click', () => this.copyLink());
    page.save.addEventListener('click', () => saved(this.name.replace(/\.\w+$/, '') + this.plan.saved, new Blob([this.output], { type: 'text/plain' })));
    page.judge.addEventListener('click', () => this.judge());
    this.view.keys.o = () => page.file.click();
    document.addEventListener('keydown', (event) => this.key(event), true);
    listen(page, page.open, async (file) => this.open(file.name, await file.text()));
    window.addEventListener('hashchange', () => this.openFragment());
  }

  tell(words, isWrong = false) {
    page.summary.textContent = words;
    page.summary.classList.toggle('refused', isWrong);
  }

  /** Loads the library and the programs, and runs the text of the address, or the first example. */
  async start() {
    this.showTab();
    try {
      const library = await Library.of(await unpackedModule(page, 'mdb'));
      const programs = await Promise.all(PROGRAMS.map(async (name) => [name, await Program.of(name, await unpackedModule(page, name))]));
      this.parts = { library, programs: Object.fromEntries(programs) };
    } catch (fault) {
      this.tell(`Scripts cannot be run here: ${fault.message}.`, true);
      return;
    }
    page.about.textContent = aboutText(page, 'mdb', 'the library for C and the programs');
    if (!(await this.openFragment())) this.openFirst();
    for (let many = 0; many < WARM; many += 1) setTimeout(() => this.plan.run(this.parts, this.editor.text), 50 * many);
  }

  namesOf(tab) {
    return Object.keys(this.examples).filter((it) => it.endsWith(TABS[tab].ending));
  }

  openFirst() {
    const [name] = this.namesOf(this.tab);
    this.open(name, this.examples[name]);
  }

  async openFragment() {
    const said = await fromFragment(location.hash, 'script').catch((fault) => this.tell(`The address holds no script that can be read: ${fault.message}`, true));
    if (!said) return said === undefined;
    this.open(said.name, said.text, Object.hasOwn(TABS, said.tab ?? '') ? said.tab : undefined);
    const entry = Number(said.entry) - 1;
    if (entry >= 0) this.go(entry);
    return true;
  }

  /** Opens a text in its tab: the one that is named, that of its name's ending, or the one that is open. */
  open(name, text, tab = tabOf(name) ?? this.tab) {
    this.keep();
    this.tab = tab;
    this.show(name, text);
  }

  show(name, text) {
    this.name = name;
    document.title = `${name} · Playground`;
    this.showTab();
    page.examples.value = Object.hasOwn(this.examples, name) ? name : '';
    this.editor.set(text, this.plan.hints);
    this.run(false);
    if (this.plan.hasPicture && this.picture.log.count > 0) this.view.go(0, null);
    else if (!this.plan.hasPicture) this.go(this.result.rows[0]?.entry ?? 0);
  }

  /** What is written stays while other tabs are open. */
  keep() {
    if (this.name !== '') this.texts[this.tab] = { name: this.name, text: this.editor.text };
  }

  turnTo(tab) {
    if (tab === this.tab) return;
    const log = this.tab === 'script' ? this.output : null;
    this.keep();
    this.tab = tab;
    const kept = this.texts[tab];
    if (kept !== undefined) this.show(kept.name, kept.text);
    else if (tab === 'verdict' && log) this.show(this.name.replace(/\.\w+$/, '.log'), log);
    else this.openFirst();
  }

  /** The log of the script goes to its judge. */
  judge() {
    if (this.output !== '') this.open(this.name.replace(/\.\w+$/, '.log'), this.output, 'verdict');
  }

  /** The controls of the tab that is open. */
  showTab() {
    this.tabs.show(this.tab);
    page.scripttitle.textContent = this.plan.name;
    page.logtitle.textContent = this.plan.output;
    page.log.setAttribute('aria-label', this.plan.output);
    page.judge.hidden = this.tab !== 'script';
    page.verdict.textContent = '';
    document.body.classList.toggle('pictureless', !this.plan.hasPicture);
    page.examples.replaceChildren(...this.namesOf(this.tab).map((it) => element('option', { value: it, textContent: it.replace(/\.\w+$/, '') })));
  }

  /** One run for all keys before the next frame. */
  changed() {
    if (this.isAsked) return;
    this.isAsked = true;
    requestAnimationFrame(() => {
      this.isAsked = false;
      this.run(true);
    });
  }

  run(isChanged) {
    if (this.parts === undefined) return;
    const begun = performance.now();
    this.result = this.plan.run(this.parts, this.editor.text);
    this.output = this.result.output;
    this.editor.mark(this.result.fault);
    this.log.show(this.result.rows);
    const ran = performance.now();
    if (this.plan.hasPicture) this.draw(isChanged);
    this.toLine(Math.min(this.editor.lineOfCaret(), this.lastLine()));
    this.summarize();
    this.times = { library: ran - begun, whole: performance.now() - begun };
    this.judgeLater();
  }

  draw(isChanged) {
    const { log, history } = readNow(this.name, this.result.picture, this.reader);
    this.view.show(log, history, isChanged);
  }

  lastLine() {
    return this.plan.hasPicture ? this.picture.log.count - 1 : (this.result.rows.at(-1)?.entry ?? -1);
  }

  /** The auditor looks at the log of a script when nobody writes for a while. */
  judgeLater() {
    clearTimeout(this.waits);
    if (this.tab !== 'script') return;
    this.waits = setTimeout(() => {
      page.verdict.textContent = this.output === '' ? '' : `mdb_auditor: ${this.parts.programs.mdb_auditor.run(this.output).output.trim()}`;
    }, JUDGED_AFTER);
  }

  summarize() {
    const { told } = this.result;
    const count = this.result.rows.length;
    const plain = `${count} ${count === 1 ? 'entry' : 'entries'}`;
    if (this.tab === 'script') {
      const { created, grants } = this.picture.history.tallies;
      this.tell([plain, `${created} connections`, `${grants} grants`].join(' · '));
    } else this.tell(told === '' ? plain : told);
    this.follow(this.entry());
  }

  entry() {
    return this.plan.hasPicture ? this.picture.entry : this.at;
  }

  /** Selects a line, where there is one: in the picture, or here. */
  go(entry) {
    if (entry < 0 || entry > this.lastLine()) return;
    if (this.plan.hasPicture) this.view.go(entry, null);
    else this.follow(entry);
  }

  step(by) {
    if (this.plan.hasPicture) this.view.step(by);
    else this.go(Math.min(Math.max(this.at + by, this.result.rows[0]?.entry ?? 0), this.lastLine()));
  }

  /** Without a picture its keys are nobody's, but those that go from line to line. */
  key(event) {
    if (this.plan.hasPicture || isWriting(event) || event.ctrlKey || event.metaKey || event.altKey || event.target.closest('[role=listbox], [role=tablist]')) return;
    const by = { ',': -1, '.': 1, Home: -Infinity, End: Infinity }[event.key];
    if (by !== undefined) this.step(by);
    if (event.key !== 'Tab' && event.key !== 'Enter' && event.key !== ' ' && event.key !== 'o') event.stopPropagation();
  }

  /** The line of the caret is the one that is shown. */
  toLine(line) {
    if (line !== this.entry() && line >= 0 && line <= this.lastLine()) this.go(line);
  }

  follow(entry) {
    this.at = entry;
    this.editor.follow(entry);
    if (!this.plan.hasPicture) this.log.follow(entry);
    page.at.textContent = this.lastLine() < 0 ? '' : `${entry + 1} of ${this.lastLine() + 1}`;
  }

  async copyLink() {
    const entry = this.entry();
    const words = { name: this.name, tab: this.tab, ...(entry >= 0 ? { entry: entry + 1 } : {}) };
    this.tell(await copied(await fragmentOf('script', this.editor.text, words)));
  }
}

const playground = new Playground();

answerScripts(playground, page);
playground.start();
