// Work for node: keys, compression and requests over loopback, so that its thread pool and its event loop take locks.
const crypto = require('crypto'), zlib = require('zlib'), http = require('http');
let left = 120;
const server = http.createServer((request, response) => response.end('x'));
const done = () => { if (--left === 0) server.close(); };
server.listen(0, '127.0.0.1', () => {
  for (let i = 0; i < 40; i++) {
    crypto.pbkdf2('word', 'salt', 12000, 32, 'sha256', done);
    zlib.gzip(Buffer.alloc(400000, 'text' + i), done);
    http.get({ port: server.address().port, host: '127.0.0.1', agent: false }, (answer) => {
      answer.resume();
      answer.on('end', done);
    });
  }
});
