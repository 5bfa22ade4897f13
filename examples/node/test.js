'use strict';

const assert = require('node:assert');
const fs = require('node:fs');
const path = require('node:path');
const test = require('node:test');
const { Driver, Kind, Fact } = require('./driver.js');

const SCRIPTS = path.join(__dirname, '../scripts');

for (const name of ['round', 'failover', 'late_error', 'load_balanced', 'pins']) {
  test(`the log of ${name}.script`, () => {
    const [open, ...lines] = fs.readFileSync(path.join(SCRIPTS, `${name}.script`), 'latin1').trimEnd().split('\n');
    const driver = new Driver(open);
    let log = driver.entry();
    for (const line of lines) {
      driver.step(line);
      log += driver.entry();
    }
    assert.strictEqual(log, fs.readFileSync(path.join(SCRIPTS, `${name}.log`), 'latin1'));
    driver.close();
  });
}

test('a round, with its facts', () => {
  const driver = new Driver('open seeds=a:27017 max=10');
  driver.step('hello 1 a:27017 0 ok rtt=5 maxWireVersion=21');
  const asked = driver.step('request 2 1 a:27017');
  assert.deepStrictEqual([asked.kind, asked.pool, asked.id], [Kind.ESTABLISHING, 0, 1]);
  const granted = asked.facts.filter((fact) => fact.kind === Fact.GRANTED);
  assert.deepStrictEqual(granted.map((fact) => [fact.party, fact.pool, fact.id]), [[1, 0, 1]]);
  driver.step('established 3 0 1 wire=21');
  assert.strictEqual(driver.step('return 4 1 ok').kind, Kind.DONE);
  driver.close();
});

test('what is refused', () => {
  assert.throws(() => new Driver('open'), { code: 'EINVAL' });
  assert.throws(() => new Driver(), { code: 'EINVAL' });
  const driver = new Driver('open seeds=a:27017');
  assert.throws(() => driver.step('reqest 2 1 a:27017'), { code: 'EINVAL' });
  assert.throws(() => driver.step(7), { code: 'EINVAL' });
  assert.throws(() => driver.step(`stop 1${' '.repeat(200000)}`), { code: 'EINVAL' });
  assert.strictEqual(driver.step('return 1 1 ok').kind, Kind.REFUSED);
  driver.close();
  assert.throws(() => driver.step('stop 2'), { code: 'ECLOSED' });
  driver.close();
});
