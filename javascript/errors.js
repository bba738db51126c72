'use strict';

/** An error of this package; the others are kinds of it. `name` says which, and the other properties what was at fault. */
class RingpopError extends Error {
  constructor(message, parts = {}) {
    super(message);
    this.name = this.constructor.name;
    Object.assign(this, parts);
  }
}

/** A line that is not a change: its number, `line`, from 1, and the `reason` why it is not one. */
class BadLine extends RingpopError {
  constructor(line, reason) {
    super(`line ${line}: ${reason}`, { line, reason });
  }
}

/** A `key` that is not UTF-8, since it has half of a surrogate pair. */
class BadKey extends RingpopError {
  constructor(key) {
    super(`a key is not UTF-8: ${JSON.stringify(key)}`, { key });
  }
}

/** A number of replicas that is not from 1 to 1,000. */
class BadReplicas extends RingpopError {
  constructor(replicas) {
    super(`replicas is ${replicas}, and not from 1 to 1000`, { replicas });
  }
}

/** A `member` that a ring cannot have, and the `reason`. */
class BadMember extends RingpopError {
  constructor(member, reason) {
    super(`${reason}: ${JSON.stringify(member)}`, { member, reason });
  }
}

/** More members than a cluster can have. */
class TooManyMembers extends RingpopError {
  constructor() {
    super('more than 4096 members');
  }
}

/**
 * An agent's refusal: the `status` and the `line` of its answer, which says why; its word (HTTP.md) in `code`, and in `retryAfter` the seconds after
 * which to ask again, each if the agent gave one.
 */
class AgentError extends RingpopError {
  constructor(status, line, code, retryAfter) {
    super(`${status}: ${line}`, { status, line, code, retryAfter });
  }
}

/** No agent answered at a `url`, and the `reason`. */
class Unreachable extends RingpopError {
  constructor(url, reason) {
    super(`no agent answers at ${url}: ${reason}`, { url, reason });
  }
}

/** An answer that is none of an agent: the `url`, and the `reason`. */
class BadAnswer extends RingpopError {
  constructor(url, reason) {
    super(`what answers at ${url} is no agent of this version: ${reason}`, { url, reason });
  }
}

module.exports = { AgentError, BadAnswer, BadKey, BadLine, BadMember, BadReplicas, RingpopError, TooManyMembers, Unreachable };
