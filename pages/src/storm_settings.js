// The settings of a storm: their names, bounds and defaults as examples/storm/settings.c has them, and the stops of their sliders.

const SIZES = [1, 2, 3, 5, 10, 20, 30, 50, 100, 200, 300, 500, 1000];
const TIMES = [0, 1, 2, 5, 10, 20, 50, 100, 200, 500, 1000, 2000, 5000, 10000, 20000, 30000, 60000, 120000, 300000, 600000];
const from = (least, most, stops) => stops.filter((it) => it >= least && it <= most);
const LAST_NONE = { none: 0 }; // the last stop is 0: no limit

/** Of the drivers: each run has its own. */
export const DRIVER_SETTINGS = [
  { name: 'maxPoolSize', usual: 100, least: 0, most: 1000, stops: [...SIZES, 0], unit: '', ...LAST_NONE },
  { name: 'minPoolSize', usual: 0, least: 0, most: 1000, stops: [0, ...from(1, 200, SIZES)], unit: '' },
  { name: 'maxConnecting', usual: 2, least: 0, most: 1000, stops: [...from(1, 100, SIZES), 0], unit: '', ...LAST_NONE },
  { name: 'waitQueueTimeoutMS', usual: 0, least: 0, most: 3600000, stops: [...from(10, 120000, TIMES), 0], unit: 'ms', ...LAST_NONE },
  { name: 'maxIdleTimeMS', usual: 0, least: 0, most: 3600000, stops: [...from(100, 600000, TIMES), 0], unit: 'ms', ...LAST_NONE },
  { name: 'connectTimeoutMS', usual: 10000, least: 1, most: 3600000, stops: from(100, 30000, TIMES), unit: 'ms' },
  { name: 'heartbeatFrequencyMS', usual: 10000, least: 500, most: 3600000, stops: from(500, 60000, TIMES), unit: 'ms' },
  { name: 'serverSelectionTimeoutMS', usual: 30000, least: 1, most: 3600000, stops: from(100, 60000, TIMES), unit: 'ms' },
  { name: 'retries', label: 'operations are tried once more', usual: 1, least: 0, most: 1, stops: [0, 1], unit: '' },
];

const DEATHS = ['refused', 'silent', 'stepdown'];

/** Of the load, the servers and the failure: both runs have the same. */
export const WORLD_SETTINGS = [
  { name: 'clients', label: 'client processes', usual: 50, least: 1, most: 1000, stops: SIZES, unit: '' },
  { name: 'operationsPerSecond', label: 'operations a second, of all', usual: 2000, least: 1, most: 1000000, stops: [10, 20, 50, 100, 200, 500, 1000, 2000, 5000, 10000, 20000], unit: '' },
  { name: 'operationMS', label: 'time of an operation', usual: 5, least: 0, most: 60000, stops: from(0, 5000, TIMES), unit: 'ms' },
  { name: 'roundTripMS', label: 'round trip', usual: 1, least: 0, most: 10000, stops: from(0, 200, TIMES), unit: 'ms' },
  { name: 'connectMS', label: 'time to connect', usual: 20, least: 0, most: 60000, stops: from(0, 5000, TIMES), unit: 'ms' },
  { name: 'acceptsPerSecond', label: 'connections that a server accepts a second', usual: 1000, least: 0, most: 1000000, stops: [10, 20, 50, 100, 200, 500, 1000, 2000, 5000, 10000, 0], unit: '', ...LAST_NONE },
  { name: 'death', label: 'the primary', usual: 'refused', words: { refused: 'dies; connections are refused', silent: 'falls silent', stepdown: 'steps down' } },
  { name: 'failsAtMS', label: 'fails at', usual: 5000, least: 0, most: 3600000, stops: from(0, 60000, TIMES), unit: 'ms' },
  { name: 'electionMS', label: 'length of the election', usual: 5000, least: 0, most: 3600000, stops: from(0, 60000, TIMES), unit: 'ms' },
  { name: 'lengthMS', label: 'length of the run', usual: 20000, least: 1, most: 600000, stops: from(5000, 120000, TIMES), unit: 'ms' },
  { name: 'sampleMS', label: 'time between samples', usual: 100, least: 1, most: 3600000, stops: from(10, 1000, TIMES), unit: 'ms' },
  { name: 'seed', label: 'seed of chance; 0 for even times', usual: 1, least: 0, most: 4294967295, stops: [0, 1, 2, 3, 4, 5, 6, 7, 8, 9], unit: '' },
];

export const SETTINGS = [...WORLD_SETTINGS, ...DRIVER_SETTINGS];

const preset = (values) => Object.fromEntries(DRIVER_SETTINGS.map(({ name, usual }) => [name, values[name] ?? usual]));

/** What drivers have where nothing is named. */
export const PRESETS = {
  CMAP: preset({}),
  pymongo: preset({ connectTimeoutMS: 20000 }),
  Node: preset({ connectTimeoutMS: 30000 }),
  Go: preset({ connectTimeoutMS: 30000 }),
  Java: preset({ waitQueueTimeoutMS: 120000 }),
  'C#': preset({ waitQueueTimeoutMS: 120000, maxIdleTimeMS: 600000, connectTimeoutMS: 30000 }),
  Rust: preset({ maxPoolSize: 10 }),
  'CMAP, no maxConnecting': preset({ maxConnecting: 0 }),
};

export const usualValues = () => Object.fromEntries(SETTINGS.map(({ name, usual }) => [name, usual]));

/** Settings in words, as the simulation and its command line read them: those that are not as usual, or all. */
export function wordsOf(values, isWhole = false) {
  return SETTINGS.filter(({ name, usual }) => isWhole || values[name] !== usual).map(({ name }) => `${name}=${values[name]}`).join(' ');
}

/** The values that words name, each within its bounds; what is none is passed over. */
export function valuesOf(words) {
  const values = usualValues();
  for (const word of words.split(/\s+/)) {
    const [name, text] = word.split('=');
    const setting = SETTINGS.find((it) => it.name === name);
    const number = Number(text);
    if (setting?.words !== undefined && DEATHS.includes(text)) values[name] = text;
    else if (setting?.words === undefined && /^\d+$/.test(text ?? '') && number >= setting?.least && number <= setting?.most) values[name] = number;
  }
  return values;
}
