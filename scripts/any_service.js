// What any_service.py is, in Node: `node any_service.js PORT`, or `node any_service.js express PORT` as a handler of Express.
"use strict";
const { createHash } = require("node:crypto");
const { writeSync } = require("node:fs");
const { createServer } = require("node:http");

const files = new Map();
const sum = (body) => createHash("sha256").update(body).digest("hex");

function keep(request, name, body) {
  const kept = files.get(name);
  if (request.method === "PUT") {
    files.set(name, body);
    return [kept ? 200 : 201, "kept", { Location: request.url }];
  }
  if (request.method === "DELETE") return [files.delete(name) ? 204 : 404, ""];
  if (!kept) return [404, "<p>none</p>", { "Content-Type": "text/html" }];
  const tag = `"${sum(kept).slice(0, 8)}"`;
  if (request.headers["if-none-match"] === tag) return [304, "", { ETag: tag, Vary: "Accept, Cookie" }];
  return [200, kept, { "Content-Type": "application/octet-stream", ETag: tag }];
}

function pairs(names) {
  const found = [];
  for (let at = 0; at < names.length; at += 2) found.push([names[at].toLowerCase(), names[at + 1]]);
  return found.sort();
}

async function answer(request, response) {
  const received = [];
  for await (const part of request) received.push(part);
  const body = Buffer.concat(received);
  const parts = request.url.split("?")[0].split("/");
  const last = parts.at(-1);
  const tell = (status, text, fields = {}) => response.writeHead(status, fields).end(text);
  writeSync(1, `${request.method} ${request.url}\n`);
  if (parts.includes("files")) return tell(...keep(request, request.url, body));
  if (parts.includes("hang")) await new Promise((resolve) => setTimeout(resolve, 1_000 * last));
  if (parts.includes("status")) return tell(Number(last), ["204", "205", "304"].includes(last) ? "" : '{"a":1}', { "WWW-Authenticate": 'Basic realm="x"' });
  if (parts.includes("cookies")) return tell(200, "c", { "Set-Cookie": ["a=1; Path=/", "b=2"], "X-Odd": "caf\xe9" });
  if (parts.includes("chunks")) {
    response.write(body);
    return response.end("end");
  }
  const told = { method: request.method, target: request.url, fields: pairs(request.rawHeaders), length: body.length, sum: sum(body) };
  return tell(200, JSON.stringify(told), { "Content-Type": "application/json" });
}

const words = process.argv.slice(2);
const handler = words.length > 1 ? require(words[0])().use(answer) : answer;
createServer(handler).listen(Number(words.at(-1)), "127.0.0.1");
