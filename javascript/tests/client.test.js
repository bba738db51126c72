'use strict';
// What a client is told by three agents, which scripts/rings runs.
const assert = require('node:assert');
const http = require('node:http');
const test = require('node:test');
const { AgentError, BadAnswer, BadKey, Client, Ring, Unreachable } = require('..');

const skip = !process.env.RINGPOP_AGENTS && 'RINGPOP_AGENTS names no agents: scripts/rings runs some';
const clients = () => process.env.RINGPOP_AGENTS.split(' ').map(it => new Client(`http://${it}`));

// A client of a server that answers a request of a path with this status, fields and text, for the time of a test.
async function asking(answer, ask) {
  const server = http.createServer(({ url }, to) => {
    const [status, fields, text] = answer(url);
    to.writeHead(status, fields).end(text);
  });
  await new Promise(done => server.listen(0, '127.0.0.1', done));
  const client = new Client(`http://127.0.0.1:${server.address().port}`);
  try {
    await ask(client);
  } finally {
    client.close();
    server.close();
  }
}

// What an agent tells of a ring, and of its members.
function told(lasts, replicas = 100) {
  const members = lasts.map(last => ({ address: `10.0.0.${last}:7946`, weight: 1 }));
  const { address } = members[0];
  return [200, {}, JSON.stringify({ own: address, address, replicas, serving: members, members })];
}

const NOT_JOINED = [503, { 'x-ringpop-error': 'not-joined', 'retry-after': '1' }, 'no host has answered\n'];

test('the owner answers', { skip }, async () => {
  for (const client of clients()) {
    for (const key of ['trip 42/ü%', '..']) {
      const answer = await client.request(key, 'hello');
      assert.ok(answer.status === 200 && answer.text.startsWith(`${key}: `) && answer.text.endsWith(' hello'));
      assert.strictEqual(answer.owner, await client.owner(key));
    }
    assert.strictEqual((await client.request('trip', 'status 418')).status, 418);
    client.close();
  }
});

test('owners of many keys', { skip }, async () => {
  const [one, other] = clients();
  const ring = await Ring.fromAgent(one.url);
  const keys = Array.from({ length: 5000 }, (_, i) => `trip-${i}`);
  assert.deepStrictEqual(await other.owners(keys, 2), keys.map(key => ring.owners(key, 2)));
  const long = Array.from({ length: 2000 }, (_, i) => `${i}${'ü'.repeat(400)}`); // (more than a megabyte)
  assert.deepStrictEqual(await other.owners(long), long.map(key => ring.owners(key, 1)));
  await assert.rejects(other.owners('trip'), /give a list of keys, and not one key: "trip"/);
  other.close();
});

test('watch sees a node leave and return', { skip }, async () => {
  const [one, , other] = clients();
  const ending = new AbortController();
  const rings = one.watch({ signal: ending.signal });
  const first = (await rings.next()).value;
  await other.leave();
  assert.deepStrictEqual((await rings.next()).value.serving.length, first.serving.length - 1);
  await assert.rejects(other.leave(), new AgentError(409, 'the node has left already', 'already-left'));
  await other.rejoin();
  assert.ok((await rings.next()).value.equals(first));
  ending.abort();
  assert.ok((await rings.next()).done);
  one.close();
  other.close();
});

test('refused, and no agent', async () => {
  await assert.rejects(new Client('http://127.0.0.1:9').owner('trip-42'), Unreachable);
  await assert.rejects(new Client('http://127.0.0.1:9').owner(undefined), /^TypeError: a key is a string, and not undefined/);
  const client = new Client('http://127.0.0.1:9');
  for (const ask of [() => client.owner('\ud800'), () => client.request('\ud800'), () => client.owners(['a', '\ud800'])]) await assert.rejects(ask, BadKey);
  await assert.rejects(client.owners(['a'], '1&not-mine=1'), /^TypeError: n is a number, and not string: 1&not-mine=1$/);
  const urls = ['127.0.0.1:7980', 'https://127.0.0.1', 'http://127.0.0.1/keys', 'http://127.0.0.1:0', 'http://127.0.0.1:99999', 'http://a b'];
  for (const url of urls) assert.throws(() => new Client(url), TypeError);
});

test('a key of dots goes to the agent as it is', async () => {
  await asking(url => [200, {}, JSON.stringify({ owners: [url] })], async client => {
    for (const key of ['.', '..', '../x']) assert.strictEqual(await client.owner(key), `/owner/${encodeURIComponent(key)}`);
  });
});

// The members that the agent holds before are itself alone.
test('a ring waits until the hosts were asked', async () => {
  await asking(path => path === '/members' ? told([1]) : NOT_JOINED, async client => {
    const refused = new AgentError(503, 'no host has answered', 'not-joined', 1);
    await assert.rejects(client.ring(), refused);
    await assert.rejects(Ring.fromAgent(client.url), refused);
    assert.strictEqual((await client.members()).length, 1);
  });
  await asking(path => path === '/members' ? told([1, 2]) : [404, {}, 'nothing at this path\n'], async client => {
    assert.strictEqual((await client.ring()).members.length, 2); // (an agent that knows no `GET /ring`)
  });
});

// And it asks for the whole ring then: all agents may have been started again with other replicas, which the digest does not tell.
test('watch goes on after each failure', async () => {
  const first = [NOT_JOINED, [200, {}, 'null'], told([1, 2])];
  let asked = 0;
  const answer = path => {
    asked += 1;
    if (!path.includes('after')) return first.length > 1 ? first.shift() : first[0];
    if (first[0][2] !== told([1, 2])[2]) return asked < 9 ? [304, {}, ''] : told([1]);
    first[0] = told([1, 2], 50);
    return [500, {}, ''];
  };
  await asking(answer, async client => {
    const rings = client.watch();
    for (const replicas of [100, 50]) {
      const ring = (await rings.next()).value;
      assert.deepStrictEqual([ring.serving.length, ring.replicas], [2, replicas]);
    }
  });
});

test('a refusal keeps what the answer has', async () => {
  const line = "the owner's application accepts no connection";
  const answers = [
    [503, { 'x-ringpop-error': 'no-member-serves', 'retry-after': '1' }, 'nobody serves\n'],
    [413, {}, ''],
    [502, { 'x-ringpop-error': 'application-not-accepting', 'x-ringpop-owner': '10.0.0.1:7946' }, `${line}\n`],
    [502, { 'x-ringpop-owner': '10.0.0.1:7946' }, `${line}\n`],
    [200, {}, '[]'],
    [200, {}, '{"replicas":0,"serving":[]}'],
  ];
  await asking(() => answers.shift(), async client => {
    await assert.rejects(client.request('trip'), new AgentError(503, 'nobody serves', 'no-member-serves', 1));
    await assert.rejects(client.request('trip'), new AgentError(413, 'Payload Too Large'));
    await assert.rejects(client.request('trip'), new AgentError(502, line, 'application-not-accepting'));
    assert.strictEqual((await client.request('trip')).status, 502); // (of the service)
    await assert.rejects(client.members(), BadAnswer);
    await assert.rejects(client.ring(), BadAnswer);
    await assert.rejects(client.request('trip', Buffer.alloc(1048577)), { status: 413, code: 'long-body' });
  });
});
