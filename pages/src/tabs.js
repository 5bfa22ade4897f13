// What the playground runs, a tab for each: a script, the judge of its log, the judge of a recording, a made-up set, and a proxy with its tenants.
import { runScript } from './running.js';
import { reasonOf, malformedText, VERDICTS } from './reasons.js';
import { whyNoFleet, whyNoProxy } from './made_up_lines.js';
import { scriptHints, fleetHints, proxyHints, noHints } from './hints.js';

const writtenLines = (text) => (text === '' ? [] : text.replace(/\n$/, '').split('\n'));

/** The library, line by line. */
function script({ library }, text) {
  const { entries, fault } = runScript(library, text);
  const output = entries.join('');
  const rows = entries.map((it, entry) => ({ entry, text: it.slice(0, -1) }));
  return { rows, picture: output, output, fault: fault === null ? null : { line: fault.line, reason: reasonOf(fault) }, told: '' };
}

/** The auditor over a log. */
function verdict({ programs }, text) {
  const { output, errors } = programs.mdb_auditor.run(text);
  const bad = /^bad entry=(\d+) why=(\w+)/.exec(output);
  const fault = bad === null ? null : { line: bad[1] - 1, reason: `entry ${bad[1]}: ${VERDICTS[bad[2]] ?? bad[2]}` };
  const told = (output + errors).trim();
  return { rows: [{ entry: fault?.line ?? 0, text: told }], picture: text, output, fault, told };
}

/** The judge of recordings: each finding is one of a line. */
function recording({ programs }, text) {
  const { output, errors } = programs.mdb_recorded.run(text);
  const lines = writtenLines(output + errors);
  const lineOf = (it) => Number(/^(?:event|line) (\d+):/.exec(it)?.[1] ?? 0) - 1;
  const rows = lines.map((it) => ({ entry: lineOf(it), text: it }));
  const first = rows.find((it) => it.entry >= 0);
  return { rows, picture: text, output, fault: first === undefined ? null : { line: first.entry, reason: first.text }, told: lines[lines.length - 1] ?? '' };
}

/** A program that answers a script of its own, whose first line it answers with nothing. */
const answered = (program, whyNot) => ({ programs }, text) => {
  const { output, errors } = programs[program].run(text);
  const rows = writtenLines(output).map((it, at) => ({ entry: at + 1, text: it }));
  const wrong = /^line (\d+) is malformed/.exec(errors);
  const line = wrong === null ? -1 : wrong[1] - 1;
  const lines = text.split('\n');
  const fault = line < 0 ? null : { line, reason: malformedText(line, whyNot(lines[line] ?? '', line + 1, lines[0])) };
  return { rows, picture: null, output, fault, told: wrong === null ? errors.trim() : '' };
};

export const TABS = {
  script: { name: 'Script', output: 'Log', ending: '.script', saved: '.log', run: script, hints: scriptHints, hasPicture: true },
  verdict: { name: 'Log, judged', output: 'Verdict of mdb_auditor', ending: '.log', saved: '.txt', run: verdict, hints: noHints, hasPicture: true },
  recording: { name: 'Recording, judged', output: 'Findings of mdb_recorded', ending: '.jsonl', saved: '.txt', run: recording, hints: noHints, hasPicture: true },
  fleet: { name: 'Made-up set', output: 'What mdb_fleet answers', ending: '.fleet', saved: '.txt', run: answered('mdb_fleet', whyNoFleet), hints: fleetHints, hasPicture: false },
  tenants: { name: 'Tenants', output: 'What mdb_proxy answers', ending: '.proxy', saved: '.txt', run: answered('mdb_proxy', whyNoProxy), hints: proxyHints, hasPicture: false },
};

/** The tab for a file, by the ending of its name, or nothing. */
export function tabOf(name) {
  const ending = name.replace(/\.json$/, '.jsonl').replace(/^.*(\.\w+)$/, '$1');
  return Object.keys(TABS).find((it) => TABS[it].ending === ending);
}
