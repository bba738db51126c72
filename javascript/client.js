'use strict';
const http = require('http');
const { setTimeout: sleep } = require('timers/promises');
const { urlToHttpOptions } = require('url');
const { AgentError, BadAnswer, RingpopError, Unreachable } = require('./errors.js');
const { Ring, keyOf, keysOf } = require('./ring.js');

// An agent closes a connection that is idle for 30 seconds.
const IDLE = 20_000;
// Keys that an agent names the owners of in one request, at most.
const MOST_KEYS = 4096;
// The bytes of JSON in one request for owners, at most; an agent takes 1,048,576.
const MOST_BYTES = 1_000_000;
// Milliseconds before `watch` asks an agent again that gave no ring.
const PAUSE = 1000;
// The bytes of a body that an agent reads at most: it closes a connection over which more are announced. Of a key's request it takes 131,072.
const MOST_BODY = 1 << 20;
const NOBODY = 'nobody serves';

function refusal({ status, text, headers }) {
  const after = Number.parseInt(headers['retry-after'], 10);
  const line = text.replace(/\n$/, '') || http.STATUS_CODES[status];
  return new AgentError(status, line, headers['x-ringpop-error'], Number.isNaN(after) ? undefined : after);
}
function pathOf(start, key) {
  if (typeof key !== 'string') throw new TypeError(`a key is a string, and not ${typeof key}: ${key}`);
  return start + encodeURIComponent(keyOf(key));
}

const isUnknown = answer => answer.status === 404 || answer.status === 405;
const isNobody = answer => answer.status === 503 && answer.text === `${NOBODY}\n`;

// The keys in lists that fit one request for owners each.
function* parts(keys) {
  let part = [];
  let size = 0;
  for (const key of keys) {
    const length = Buffer.byteLength(JSON.stringify(key)) + 1;
    if (part.length === MOST_KEYS || (part.length && size + length > MOST_BYTES)) {
      yield part;
      part = [];
      size = 0;
    }
    part.push(key);
    size += length;
  }
  if (part.length) yield part;
}

/** Asks an agent over HTTP. Each call rejects with Unreachable if no agent answers, and with AgentError if it refuses. */
class Client {
  #agent = new http.Agent({ keepAlive: true, timeout: IDLE });
  #where;

  /** Makes a client of the agent at this URL. A request may take `timeout` milliseconds: after a crash one for a key takes nine seconds. */
  constructor(url = 'http://127.0.0.1:7980', { timeout = 60_000 } = {}) {
    const parts = URL.canParse?.(url) === false ? {} : new URL(url);
    if (parts.protocol !== 'http:' || parts.port === '0' || parts.pathname !== '/' || parts.search) {
      throw new TypeError(`bad URL ${JSON.stringify(url)}: give where an agent answers HTTP, as http://127.0.0.1:7980`);
    }
    const { hostname, port } = urlToHttpOptions(parts);
    this.#where = { hostname, port };
    this.url = parts.origin;
    this.timeout = timeout;
  }

  /**
   * Has the service of the key's owner answer, and gives its answer, whatever its status: `{ status, body, text, owner, headers }`. Rejects with
   * AgentError if the service gave no answer, too: its status is 502 then, and its `code` says why (HTTP.md). A request may be done twice, and may have
   * been done after an error: give what may not be repeated an id. An agent that passes on no method but POST refuses another one, and drops the headers.
   */
  async request(key, body = '', { method = 'POST', headers = {} } = {}) {
    const answer = await this.#ask(method, pathOf('/keys/', key), { body, headers });
    if (!answer.owner || answer.headers['x-ringpop-error']) throw refusal(answer);
    return answer;
  }

  /** The address of the key's owner, as the agent sees it now; null if no member serves. */
  async owner(key) {
    const answer = await this.#ask('GET', pathOf('/owner/', key));
    return isNobody(answer) ? null : this.#json(answer).owners[0];
  }

  /** The first n owners of each key, in the order of the keys; empty lists if no member serves. Those of each request are of one moment: 4,096 keys, or some megabyte of them. */
  async owners(keys, n = 1) {
    if (typeof n !== 'number') throw new TypeError(`n is a number, and not ${typeof n}: ${n}`);
    const wanted = keysOf(keys).map(keyOf);
    const found = [];
    for (const part of parts(wanted)) {
      const answer = await this.#ask('POST', `/owners?n=${n}`, { body: JSON.stringify(part) });
      if (isUnknown(answer)) {
        const ring = await this.ring();
        return wanted.map(key => ring.owners(key, n));
      }
      found.push(...isNobody(answer) ? part.map(() => []) : this.#json(answer).owners);
    }
    return found;
  }

  /** The members that the agent holds, ascending by address, those that do not serve included. */
  async members() {
    return (await this.#all()).members;
  }

  /** The ring of the members that serve, as the agent sees it now. Rejects with AgentError, of status 503, until the agent has asked its hosts. */
  ring() {
    return this.#now();
  }

  /**
   * The ring now, and from then on each other ring, until `signal` is aborted. An agent that does not answer, refuses, or answers what cannot be read is
   * asked again after a second. One that knows `GET /ring` holds each question for at most `wait` seconds, 1 to 60, and answers as soon as it has another
   * ring; one that does not is asked for its members each second. A ring that did not last until it was asked for is passed over.
   */
  async *watch({ ring, wait = 30, signal } = {}) {
    let known; // what the agent told; none once it may have been started again, maybe with other replicas, which the digest does not tell
    while (!signal?.aborted) {
      try {
        known = await this.#later(known, wait, signal);
      } catch (error) {
        if (signal?.aborted) return;
        if (!(error instanceof RingpopError)) throw error;
        known = undefined;
        await sleep(PAUSE);
        continue;
      }
      if (known.equals(ring)) continue;
      ring = known;
      known = undefined;
      yield ring;
    }
  }

  /** Has the node leave the ring: it owns no key from then on, and still passes requests to their owners. */
  leave() {
    return this.#tell('/leave');
  }

  /** Has the node come back to the ring. */
  rejoin() {
    return this.#tell('/rejoin');
  }

  /** Closes the kept connections. */
  close() {
    this.#agent.destroy();
  }

  async #tell(path) {
    const answer = await this.#ask('POST', path);
    if (answer.status !== 200) throw refusal(answer);
  }

  /** The ring of all members, those that do not serve included. */
  async #all(signal) {
    const told = this.#json(await this.#ask('GET', '/members', { signal }));
    return this.#ring(told?.members, told?.replicas, told?.address);
  }

  async #now(signal) {
    const answer = await this.#ask('GET', '/ring', { signal });
    return answer.status === 404 ? this.#all(signal) : this.#serving(answer); // (404: an agent that knows no `GET /ring`)
  }

  /** The ring as soon as it is another one than this, or this one after the wait. */
  async #later(known, wait, signal) {
    if (!known) return this.#now(signal);
    const asked = Date.now();
    const seconds = Math.max(1, Math.min(60, Math.trunc(wait)));
    const answer = await this.#ask('GET', `/ring?after=${known.digest}&wait=${seconds}`, { extra: seconds * 1000, signal });
    if (answer.status !== 304) return this.#serving(answer);
    if (Date.now() - asked >= PAUSE) return known;
    await sleep(PAUSE); // (it did not wait)
    return this.#now(signal);
  }

  #serving(answer) {
    const told = this.#json(answer);
    return this.#ring(told?.serving, told?.replicas, told?.own);
  }

  #ring(members, replicas, own) {
    if (!Array.isArray(members)) throw new BadAnswer(this.url, 'it has no members');
    try {
      return new Ring(members, { replicas, own });
    } catch (error) {
      if (error instanceof RingpopError) throw new BadAnswer(this.url, error.message);
      throw error;
    }
  }

  #json(answer) {
    if (answer.status !== 200) throw refusal(answer);
    try {
      return JSON.parse(answer.text);
    } catch {
      throw new BadAnswer(this.url, 'it is not JSON');
    }
  }

  async #ask(method, path, { body = '', headers = {}, extra = 0, signal } = {}) {
    const sent = Buffer.from(body);
    if (sent.length > MOST_BODY) {
      throw new AgentError(413, `bad body: it has ${sent.length} bytes, and an agent reads no more than ${MOST_BODY}`, 'long-body');
    }
    return new Promise((resolve, reject) => {
      const fail = error => reject(new Unreachable(this.url, error.message || error.code));
      const fields = method === 'GET' ? headers : { ...headers, 'content-length': sent.length };
      // (not as a URL, of which `.` and `..` would go)
      const request = http.request({ ...this.#where, path, method, headers: fields, agent: this.#agent, signal }, answer => {
        const pieces = [];
        answer.on('data', piece => pieces.push(piece));
        answer.on('error', fail);
        answer.on('end', () => {
          const whole = Buffer.concat(pieces);
          resolve({ status: answer.statusCode, body: whole, text: whole.toString(), owner: answer.headers['x-ringpop-owner'], headers: answer.headers });
        });
      });
      request.setTimeout(this.timeout + extra, () => request.destroy(new Error(`no answer within ${(this.timeout + extra) / 1000} seconds`)));
      request.on('error', fail);
      request.end(method === 'GET' ? undefined : sent);
    });
  }
}

module.exports = { Client };
