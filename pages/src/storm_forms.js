// The settings as controls: for each a slider with its stops and a number beside it, or a choice of words.
import { element } from './element.js';

/** The stop that is nearest to a value. */
function stopOf(setting, value) {
  const exact = setting.stops.indexOf(value);
  if (exact >= 0) return exact;
  const away = (stop) => (stop === setting.none ? Infinity : Math.abs(stop - value));
  return setting.stops.reduce((best, stop, at) => (away(stop) < away(setting.stops[best]) ? at : best), 0);
}

const said = (setting, value) => (value === setting.none ? 'no limit' : `${value} ${setting.unit}`.trim());

/** A setting that is a number. */
function numberRow(setting, owner, changed) {
  const id = `${owner.id}-${setting.name}`;
  const slider = element('input', { type: 'range', min: 0, max: setting.stops.length - 1, step: 1, id: `${id}-slider` });
  const number = element('input', { type: 'number', min: setting.least, max: setting.most, step: 1, id, required: true });
  const label = element('label', { htmlFor: id, textContent: setting.label ?? setting.name });
  const unit = element('span', { className: 'unit' });
  const show = (value) => {
    slider.value = stopOf(setting, value);
    slider.setAttribute('aria-valuetext', said(setting, value));
    unit.textContent = value === setting.none ? 'none' : setting.unit;
  };
  slider.setAttribute('aria-label', `${setting.label ?? setting.name}, ${owner.name}`);
  slider.addEventListener('input', () => {
    number.value = setting.stops[slider.value];
    show(setting.stops[slider.value]);
    changed(setting.name, setting.stops[slider.value]);
  });
  number.addEventListener('input', () => {
    if (number.value === '' || !number.checkValidity()) return;
    show(Number(number.value));
    changed(setting.name, Number(number.value));
  });
  const set = (value) => {
    number.value = value;
    show(value);
  };
  return { row: element('div', { className: 'setting' }, label, slider, number, unit), set };
}

/** A setting that is one of some words. */
function choiceRow(setting, owner, changed) {
  const id = `${owner.id}-${setting.name}`;
  const choice = element('select', { id }, ...Object.entries(setting.words).map(([value, words]) => new Option(words, value)));
  choice.addEventListener('change', () => changed(setting.name, choice.value));
  const set = (value) => {
    choice.value = value;
  };
  return { row: element('div', { className: 'setting' }, element('label', { htmlFor: id, textContent: setting.label }), choice), set };
}

/** The controls of an owner, { id, name }, in a box; `changed` hears the name and the value of each that is changed. */
export class Controls {
  constructor(box, settings, owner, changed) {
    this.rows = new Map();
    for (const setting of settings) {
      const made = (setting.words === undefined ? numberRow : choiceRow)(setting, owner, changed);
      this.rows.set(setting.name, made);
      box.append(made.row);
    }
  }

  set(values) {
    for (const [name, { set }] of this.rows) set(values[name]);
  }

  /** Marks what differs from other values. */
  compare(values, others) {
    for (const [name, { row }] of this.rows) row.classList.toggle('differs', values[name] !== others[name]);
  }
}
