// A service that counts the requests of each key: `node app.js PORT`, behind `ringpop agent --app 127.0.0.1:PORT ..`.
const http = require('http');

const counts = new Map();

const server = http.createServer((request, response) => {
  const key = decodeURIComponent(request.url.slice('/keys/'.length));
  let body = '';
  request.on('data', piece => { body += piece; });
  request.on('end', () => {
    const count = (counts.get(key) ?? 0) + 1;
    counts.set(key, count);
    response.end(`${key}: ${count} ${body}`);
  });
});

server.keepAliveTimeout = 60_000;
server.listen(Number(process.argv[2]), '127.0.0.1');
