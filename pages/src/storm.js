// The page that compares settings of drivers under a failover: two runs of the simulation beside each other.
import { Simulation } from './simulation.js';
import { DRIVER_SETTINGS, WORLD_SETTINGS, PRESETS, usualValues, valuesOf, wordsOf } from './storm_settings.js';
import { Controls } from './storm_forms.js';
import { Charts } from './storm_charts.js';
import { MICROSECONDS, showNumbers, samplesText, sumsText } from './storm_numbers.js';
import { unpackedModule, aboutText } from './modules.js';
import { saved, copied } from './saving.js';
import { followThemes } from './themes.js';
import { durationText } from './scale.js';
import { element } from './element.js';

const page = Object.fromEntries([...document.querySelectorAll('[id]')].map((it) => [it.id, it]));
const REST = 200; // milliseconds after the last change, before the runs begin anew
const PORTION = 10000; // events, between which the page may do other things
const NAMES = ['A', 'B'];

const pause = () => new Promise((resolve) => setTimeout(resolve, 0));

/** At first a setting is left out in B, so that there is something to see. */
const firstValues = () => [usualValues(), { ...usualValues(), ...PRESETS['CMAP, no maxConnecting'] }];

class Storm {
  constructor() {
    this.values = firstValues();
    this.turn = 0;
    this.isAtRest = false; // the runs of the last change are drawn
    this.charts = new Charts([page.chartsa, page.chartsb], (lines) => page.told.replaceChildren(...lines.map((it) => element('span', { textContent: it }))));
    this.world = new Controls(page.world, WORLD_SETTINGS, { id: 'world', name: 'both' }, (name, value) => this.changed([0, 1], { [name]: value }));
    this.drivers = NAMES.map((name, at) => new Controls(page['driver' + name.toLowerCase()], DRIVER_SETTINGS, { id: 'driver' + name, name }, (setting, value) => this.changed([at], { [setting]: value })));
    this.bind();
  }

  bind() {
    NAMES.forEach((name, at) => {
      const choice = page['preset' + name.toLowerCase()];
      choice.append(new Option('…', ''), ...Object.keys(PRESETS).map((it) => new Option(it, it)));
      choice.addEventListener('change', () => choice.value !== '' && this.changed([at], PRESETS[choice.value]));
    });
    page.same.addEventListener('click', () => this.changed([1], this.values[0]));
    page.usual.addEventListener('click', () => {
      this.values = firstValues();
      this.changed([], {});
    });
    page.link.addEventListener('click', () => this.copyLink());
    page.savesamples.addEventListener('click', () => this.runs && saved('storm-samples.csv', new Blob([samplesText(this.runs)], { type: 'text/csv' })));
    page.savenumbers.addEventListener('click', () => this.runs && saved('storm-numbers.csv', new Blob([sumsText(this.runs)], { type: 'text/csv' })));
    window.addEventListener('hashchange', () => this.openFragment());
    new ResizeObserver(() => this.charts.paint()).observe(page.charts);
    followThemes(page.themes, () => this.charts.paint());
  }

  tell(words, isWrong = false) {
    page.summary.textContent = words;
    page.summary.classList.toggle('refused', isWrong);
  }

  async start() {
    this.show();
    try {
      this.simulation = await Simulation.of(await unpackedModule(page, 'storm'));
    } catch (fault) {
      this.tell(`Nothing can be simulated here: ${fault.message}.`, true);
      return;
    }
    page.about.textContent = aboutText(page, 'storm', 'the library for C');
    if (!this.openFragment()) await this.run();
  }

  /** Settings of the address: #a=NAME=VALUE+..&b=.. */
  openFragment() {
    const said = new URLSearchParams(location.hash.slice(1));
    if (!said.has('a') && !said.has('b')) return false;
    NAMES.forEach((name, at) => {
      this.values[at] = valuesOf(said.get(name.toLowerCase()) ?? '');
    });
    for (const { name } of WORLD_SETTINGS) this.values[1][name] = this.values[0][name];
    this.changed([], {});
    return true;
  }

  fragment() {
    return '#' + new URLSearchParams(NAMES.map((name, at) => [name.toLowerCase(), wordsOf(this.values[at])]));
  }

  async copyLink() {
    this.tell(await copied(this.fragment()));
  }

  changed(which, values) {
    for (const at of which) Object.assign(this.values[at], values);
    this.show();
    this.isAtRest = false;
    clearTimeout(this.waits);
    this.waits = setTimeout(() => this.run(), REST);
  }

  /** The controls as the values are. */
  show() {
    this.world.set(this.values[0]);
    this.drivers.forEach((it, at) => {
      it.set(this.values[at]);
      it.compare(this.values[at], this.values[1 - at]);
      const own = Object.keys(PRESETS).find((name) => DRIVER_SETTINGS.every((setting) => PRESETS[name][setting.name] === this.values[at][setting.name]));
      page['preset' + NAMES[at].toLowerCase()].value = own ?? '';
    });
    page.command.textContent = `examples/storm/out/storm ${wordsOf(this.values[0])} -- ${DRIVER_SETTINGS.filter(({ name }) => this.values[0][name] !== this.values[1][name]).map(({ name }) => `${name}=${this.values[1][name]}`).join(' ')}`.replace(/ +/g, ' ');
  }

  /** Runs both, in portions, unless another change comes meanwhile. */
  async run() {
    if (this.simulation === undefined) return;
    this.turn += 1;
    const { turn } = this;
    const begun = performance.now();
    try {
      const runs = [];
      for (const at of [0, 1]) {
        const made = await this.runOne(at, turn);
        if (made === null) return;
        runs.push(made);
      }
      this.runs = runs;
      this.took = performance.now() - begun;
      this.charts.show(runs);
      showNumbers(page.numbers, runs);
      this.summarize();
      this.isAtRest = true;
    } catch (fault) {
      this.tell(`The run ended early: ${fault.message}.`, true);
    }
  }

  async runOne(at, turn) {
    const values = this.values[at];
    const run = this.simulation.begin(wordsOf(values, true));
    while (run.go(PORTION)) {
      page.progress.value = (at + (run.table().many * values.sampleMS) / values.lengthMS) / 2;
      await pause();
      if (turn !== this.turn) return null;
    }
    page.progress.value = (at + 1) / 2;
    return this.told(NAMES[at], values, run.samples(), run.sums());
  }

  /** What the charts and the table are of. */
  told(name, values, samples, sums) {
    const rows = samples.rows.map((row) => Object.fromEntries(samples.names.map((it, at) => [it, row[at]])));
    const marks = [[values.failsAtMS, 'failure', 'bad'], [values.failsAtMS + values.electionMS, 'election', 'ink']];
    if (sums.recoveredUS > 0) marks.push([sums.recoveredUS / MICROSECONDS, 'recovery', 'available']);
    return { name, samples, sums, rows, marks, failsAt: values.failsAtMS, length: values.lengthMS, step: values.sampleMS, rate: 1000 / values.sampleMS };
  }

  summarize() {
    const of = ({ name, sums, failsAt }) => {
      const over = sums.recoveredUS === 0 ? 'no recovery in this run' : `recovered ${durationText((sums.recoveredUS - failsAt * MICROSECONDS) / MICROSECONDS)} after the failure`;
      return `${name}: ${over}, at most ${sums.pendingMost.toLocaleString('en')} connections being established at once, ${sums.failed.toLocaleString('en')} operations failed`;
    };
    this.tell(this.runs.map(of).join(' · '));
  }
}

const storm = new Storm();

window.storm = {
  set: (which, values) => storm.changed([which], values),
  values: () => storm.values,
  sums: () => storm.runs?.map((it) => it.sums) ?? null,
  samples: () => samplesText(storm.runs),
  numbers: () => sumsText(storm.runs),
  drawn: () => storm.charts.charts.map((it) => ({ title: it.plan.title, run: it.run.name, rows: it.run.rows.length, told: it.told() })),
  took: () => storm.took ?? null,
  isAtRest: () => storm.isAtRest,
};
storm.start();
