'use strict';
const { createHash } = require('crypto');
const { BadKey, BadLine, BadMember, BadReplicas, TooManyMembers } = require('./errors.js');

const MAX_MEMBERS = 4096;
const MAX_LINE = 1 << 20;
const RANKS = { alive: 0, suspect: 1, faulty: 2, leave: 3, tombstone: 4 };

const isNumber = (value, least, most) => Number.isSafeInteger(value) && least <= value && value <= most;
const serves = member => RANKS[member.status] < 2;

/** The number by which addresses ascend; undefined if it is not the one text of an address. */
function numberOf(address) {
  const parts = typeof address === 'string' && /^(\d{1,3})\.(\d{1,3})\.(\d{1,3})\.(\d{1,3}):(\d{1,5})$/.exec(address);
  if (!parts || address.includes('\n') || parts.slice(1).some(part => part.length > 1 && part[0] === '0')) return undefined;
  const numbers = parts.slice(1).map(Number);
  const port = numbers.pop();
  if (numbers.some(it => it > 255) || port < 1 || port > 65535) return undefined;
  return numbers.reduce((sum, it) => sum * 256 + it, 0) * 65536 + port;
}

/** The members with what is left out, ascending by address. */
function checked(members) {
  const held = new Map();
  for (const given of members) {
    const member = { weight: 1, status: 'alive', incarnation: 0, ...given };
    const number = numberOf(member.address);
    if (number === undefined) throw new BadMember(given, "a member has an address like '10.0.0.1:7946'");
    if (!FIELDS.weight(member.weight) || !FIELDS.status(member.status)) {
      throw new BadMember(given, `a weight is 1 to 8, and a status one of ${Object.keys(RANKS).join(', ')}`);
    }
    if (held.has(number)) throw new BadMember(given, 'two members have one address');
    held.set(number, member);
  }
  return [...held].sort(([one], [other]) => one - other).map(([, member]) => member);
}

/** A key, unless it has half of a surrogate pair: of that UTF-8 would make another key. */
function keyOf(key) {
  if (typeof key === 'string' && /\p{Surrogate}/u.test(key)) throw new BadKey(key);
  return key;
}

/** A list of keys, unless it is one key. */
function keysOf(keys) {
  if (typeof keys === 'string') throw new TypeError(`give a list of keys, and not one key: ${JSON.stringify(keys)}`);
  return [...keys];
}

/** The first eight bytes of the SHA-256 as two numbers, since one of JavaScript holds 53 bits. */
function hashOf(text) {
  const digest = createHash('sha256').update(text).digest();
  return [digest.readUInt32BE(0), digest.readUInt32BE(4)];
}

// What each field of a change has to be.
const FIELDS = {
  address: it => numberOf(it) !== undefined,
  incarnationNumber: it => isNumber(it, 0, Number.MAX_SAFE_INTEGER),
  source: it => numberOf(it) !== undefined,
  sourceIncarnationNumber: it => isNumber(it, 0, Number.MAX_SAFE_INTEGER),
  status: it => typeof it === 'string' && Object.hasOwn(RANKS, it),
  tombstone: it => typeof it === 'boolean',
  weight: it => isNumber(it, 1, 8),
};

/** The member that a change line tells of. */
function memberOf(line, number) {
  if (Buffer.byteLength(line) > MAX_LINE) throw new BadLine(number, 'the line is too long');
  let change;
  try {
    change = JSON.parse(line);
  } catch {
    throw new BadLine(number, 'not JSON');
  }
  if (typeof change !== 'object' || change === null || Array.isArray(change)) throw new BadLine(number, 'not an object');
  for (const [name, isGood] of Object.entries(FIELDS)) {
    const isThere = Object.hasOwn(change, name);
    if (name === 'tombstone' && change.status !== 'faulty' || !isThere && (name === 'tombstone' || name === 'weight')) continue;
    if (!isThere) throw new BadLine(number, `the field ${name} is missing`);
    if (!isGood(change[name])) throw new BadLine(number, `the field ${name} is bad: ${JSON.stringify(change[name])}`);
  }
  const status = change.status === 'faulty' && change.tombstone ? 'tombstone' : change.status;
  return { address: change.address, weight: change.weight ?? 1, status, incarnation: change.incarnationNumber };
}

/** Whether the second of two changes of one member overrides the first: by incarnation, then status, then weight. */
function isLess(one, other) {
  if (one.incarnation !== other.incarnation) return one.incarnation < other.incarnation;
  if (one.status !== other.status) return RANKS[one.status] < RANKS[other.status];
  return one.weight < other.weight;
}

/**
 * The owners of keys among members that do not change: for other members make another ring. It names the same owners, in the same order, as each
 * node of a cluster with these members and this number of replicas, and as `ringpop owner`.
 */
class Ring {
  #hashes;
  #names;

  /**
   * Makes the ring of members with different addresses, each `{ address, weight, status, incarnation }`, of which all but the first may be left out;
   * `own` names the node that told them. Throws BadReplicas if `replicas` is not 1 to 1,000, TooManyMembers, and BadMember.
   */
  constructor(members, { replicas = 100, own } = {}) {
    if (!isNumber(replicas, 1, 1000)) throw new BadReplicas(replicas);
    if (members.length > MAX_MEMBERS) throw new TooManyMembers();
    this.members = checked(members);
    this.replicas = replicas;
    this.own = own;
    this.serving = this.members.filter(serves).map(({ address, weight }) => ({ address, weight }));
    this.#place();
  }

  /** Places the points of the serving members on the circle; at one hash the lower address comes first. */
  #place() {
    const points = this.serving.flatMap(({ address, weight }, place) =>
      Array.from({ length: this.replicas * weight }, (_, i) => [...hashOf(`${address}${i}`), place]));
    points.sort((one, other) => one[0] - other[0] || one[1] - other[1] || one[2] - other[2]);
    this.#hashes = [Uint32Array.from(points, it => it[0]), Uint32Array.from(points, it => it[1])];
    this.#names = points.map(it => this.serving[it[2]].address);
  }

  /** Makes the ring of change lines, as `ringpop members --lines` prints them. Throws BadLine, BadReplicas and TooManyMembers. */
  static fromMembers(lines, { replicas = 100 } = {}) {
    const held = new Map();
    const parts = typeof lines === 'string' ? lines.split('\n') : [...lines];
    if (typeof lines === 'string' && parts[parts.length - 1] === '') parts.pop();
    parts.forEach((line, i) => {
      const member = memberOf(line, i + 1);
      const known = held.get(member.address);
      if (!known || isLess(known, member)) held.set(member.address, member);
    });
    return new Ring([...held.values()], { replicas });
  }

  /** Makes the ring of the members that serve, as an agent sees it now. Rejects with AgentError, of status 503, until the agent has asked its hosts. */
  static fromAgent(url = 'http://127.0.0.1:7980') {
    const { Client } = require('./client.js');
    return new Client(url).ring();
  }

  /** The place of the first point at or after the key's hash, wrapping around. */
  #at(key) {
    const [high, low] = hashOf(keyOf(key));
    const [highs, lows] = this.#hashes;
    let start = 0;
    let end = highs.length;
    while (start < end) {
      const middle = start + end >>> 1;
      if (highs[middle] < high || highs[middle] === high && lows[middle] < low) start = middle + 1;
      else end = middle;
    }
    return start % this.#names.length;
  }

  /** The address of the key's owner, as '10.0.0.1:7946'; null if no member serves. A key is a string, which counts as its UTF-8, or a Buffer. */
  owner(key) {
    return this.#names.length ? this.#names[this.#at(key)] : null;
  }

  /** The first n owners of the key, all different, the owner first, or all that serve if those are fewer. */
  owners(key, n) {
    if (!isNumber(n, 0, Number.MAX_SAFE_INTEGER)) throw new RangeError(`n is ${n}, and not 0 or more`);
    const wanted = Math.min(n, this.serving.length);
    const found = new Set();
    for (let place = wanted && this.#at(key); found.size < wanted; place = (place + 1) % this.#names.length) found.add(this.#names[place]);
    return [...found];
  }

  /** Those keys that have another owner here than in another ring, such as the ring before: in their order, with both owners. */
  moved(keys, other) {
    const moves = keysOf(keys).map(key => ({ key, before: other.owner(key), after: this.owner(key) }));
    return moves.filter(move => move.before !== move.after);
  }

  /** The ring's digest in 64 hexadecimal digits, as `GET /ring` of an agent gives it: equal digests, equal serving members. */
  get digest() {
    const text = this.serving.map(({ address, weight }) => `${address}alive0${weight > 1 ? `*${weight}` : ''}`).join(';');
    return createHash('sha256').update(text).digest('hex');
  }

  /** Whether two rings have the same serving members, weights and replicas, so that they name the same owners. */
  equals(other) {
    return other instanceof Ring && this.replicas === other.replicas && this.digest === other.digest;
  }

  toString() {
    return `ring of ${this.members.length} members, ${this.serving.length} serving, ${this.replicas} replicas, digest ${this.digest.slice(0, 8)}`;
  }
}

module.exports = { MAX_MEMBERS, Ring, keyOf, keysOf };
