// A script is run: one driver, line by line, up to the first line that does no step.
import { STATUS } from './library.js';

/** The lines of a script; the last one may lack its newline. */
export function scriptLines(text) {
  const lines = text.replaceAll('\r\n', '\n').split('\n');
  if (lines[lines.length - 1] === '') lines.pop();
  return lines;
}

function stopped(library, line, fault) {
  library.start();
  return { line, status: null, text: `the library stopped: ${fault.message}` };
}

/** The entries of a script, and the line at which it ended early, with the status of its call: { entries, fault }. */
export function runScript(library, text) {
  const lines = scriptLines(text);
  const entries = [];
  let at = 0;
  try {
    const driver = library.driver();
    let fault = null;
    for (; at < lines.length && fault === null; at += 1) {
      const status = driver.step(lines[at]);
      if (status === STATUS.ok) entries.push(driver.entry());
      else fault = { line: at, status, text: lines[at] };
    }
    driver.close();
    return { entries, fault };
  } catch (fault) {
    return { entries, fault: stopped(library, at, fault) };
  }
}
