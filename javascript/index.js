'use strict';
/**
 * Which node owns a key: asked of an agent, or found in process.
 *
 *     const { Client, Ring } = require('ringpop');
 *
 *     const client = new Client('http://127.0.0.1:7980');    // an agent, `ringpop agent --http 127.0.0.1:7980 ..`
 *     await client.request('trip-42', 'hello');              // the answer of the service whose node owns the key
 *     let ring = await Ring.fromAgent('http://127.0.0.1:7980');
 *     ring.owner('trip-42');                                 // '10.0.0.2:7946', without asking anyone
 *     for await (ring of client.watch()) { .. }              // now, and again after each change of the ring
 */
const { MAX_MEMBERS, Ring } = require('./ring.js');

module.exports = { ...require('./errors.js'), MAX_MEMBERS, Ring, ...require('./client.js') };
