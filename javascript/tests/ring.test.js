'use strict';
// What a ring names compared with the program's answers, and what is refused. scripts/rings makes the folder of answers.
const assert = require('node:assert');
const { readFileSync } = require('node:fs');
const test = require('node:test');
const { BadKey, BadLine, BadMember, BadReplicas, MAX_MEMBERS, Ring, RingpopError, TooManyMembers } = require('..');

const FOLDER = process.env.RINGPOP_ANSWERS;
const read = name => readFileSync(`${FOLDER}/${name}`, 'utf8');
const change = (address, incarnationNumber, status, more = {}) =>
  JSON.stringify({ address, incarnationNumber, source: '10.0.0.1:7946', sourceIncarnationNumber: 1, status, ...more });
const ringOf = (...lasts) => new Ring(lasts.map(last => ({ address: `10.0.0.${last}:7946`, weight: 1, status: 'alive', incarnation: 1 })));

test('the answers of the program', { skip: !FOLDER && 'RINGPOP_ANSWERS names no folder: scripts/rings makes one' }, () => {
  const ring = Ring.fromMembers(read('members'));
  const answers = read('answers').split('\n').slice(0, -1);
  assert.strictEqual(answers.length, 10_000);
  for (const answer of answers) {
    const [key, owners] = answer.split('\t');
    assert.deepStrictEqual(ring.owners(key, 3), owners.split(' '));
    assert.strictEqual(ring.owner(key), owners.split(' ')[0]);
    assert.strictEqual(ring.owner(Buffer.from(key)), ring.owner(key));
  }
  assert.strictEqual(ring.digest, read('digest').trim());
});

test('servers alone', () => {
  const lines = ['alive', 'suspect', 'faulty', 'leave'].map((status, i) => change(`10.0.0.${i + 1}:7946`, 1, status));
  const ring = Ring.fromMembers([...lines, change('10.0.0.1:7946', 2, 'faulty'), lines[0]]);
  assert.deepStrictEqual(ring.owners('trip-42', 9), ['10.0.0.2:7946']);
  assert.deepStrictEqual([ring.members.length, ring.owners('', 0)], [4, []]);
  assert.strictEqual(Ring.fromMembers('').owner('trip-42'), null);
  assert.deepStrictEqual(Ring.fromMembers([]).owners('trip-42', 3), []);
});

test('what moved, and equal rings', () => {
  const [before, after] = [ringOf(1, 2), ringOf(1, 2, 3)];
  const keys = Array.from({ length: 300 }, (_, i) => `trip-${i}`);
  const moves = after.moved(keys, before);
  assert.deepStrictEqual(moves.map(it => it.key), keys.filter(key => before.owner(key) !== after.owner(key)));
  assert.ok(moves.every(it => it.after === '10.0.0.3:7946' && it.before === before.owner(it.key)));
  const same = Ring.fromMembers([change('10.0.0.2:7946', 7, 'suspect'), change('10.0.0.1:7946', 1, 'alive'), change('10.0.0.4:7946', 1, 'leave')]);
  assert.ok(before.equals(same) && !before.equals(after) && !before.equals(new Ring(before.members, { replicas: 99 })) && !before.equals(null));
});

test('lines at fault', () => {
  const own = '10.0.0.1:7946';
  for (const [line, reason] of [
    ['[]', 'not an object'],
    ['{"address":', 'not JSON'],
    ['{}', 'the field address is missing'],
    [change('10.0.0.01:7946', 1, 'alive'), 'the field address is bad: "10.0.0.01:7946"'],
    [change('10.0.0.1:7946\n', 1, 'alive'), 'the field address is bad: "10.0.0.1:7946\\n"'],
    [change(own, 1.5, 'alive'), 'the field incarnationNumber is bad: 1.5'],
    [change(own, 1, 'Alive'), 'the field status is bad: "Alive"'],
    [change(own, 1, 'alive', { weight: 9 }), 'the field weight is bad: 9'],
    [change(own, 1, 'faulty', { tombstone: 1 }), 'the field tombstone is bad: 1'],
  ]) {
    assert.throws(() => Ring.fromMembers([change(own, 1, 'alive'), line]), new BadLine(2, reason));
  }
  for (const replicas of [0, 1001, -1, '100']) assert.throws(() => Ring.fromMembers('', { replicas }), new BadReplicas(replicas));
  assert.throws(() => new Ring(Array(MAX_MEMBERS + 1)), TooManyMembers);
  assert.ok(new TooManyMembers() instanceof RingpopError);
  assert.throws(() => ringOf(1).owners('trip-42', -1), /^RangeError: n is -1, and not 0 or more$/);
  for (const key of ['\ud800', 'a\udc00b']) assert.throws(() => ringOf(1).owner(key), new BadKey(key));
  assert.strictEqual(ringOf(1).owner('🗝'), '10.0.0.1:7946');
  assert.throws(() => ringOf(1).moved('abc', ringOf(2)), /^TypeError: give a list of keys, and not one key: "abc"$/);
});

test('members at fault', () => {
  const address = '10.0.0.1:7946';
  assert.strictEqual(new Ring([{ address }]).owner('trip-42'), address);
  for (const bad of [{ address: '10.0.0.1' }, { address: '10.0.0.2:7946', weight: 9 }, { address: '10.0.0.2:7946', status: 'up' }, { address }, undefined]) {
    assert.throws(() => new Ring([{ address }, bad]), BadMember);
  }
});
