#!/usr/bin/node
// relay.js FOLDER SOCKET RELAY [AT]: a relay in JavaScript, by docs/HTTP.md and docs/MESSAGES.md
// alone. Each line of its input has the members of a message, in any order. With a moment AT it
// tells what became of all that is open then.
'use strict';
const fs = require('fs');
const http = require('http');
const [folder, socketPath, relay, at] = process.argv.slice(2);

function ask(method, path, body) {
  return new Promise((resolve) => {
    const headers = body ? { 'Content-Length': body.length } : {};
    const request = http.request({ socketPath, method, path, headers, timeout: 20000 }, (reply) => {
      const pieces = [];
      reply.on('data', (piece) => pieces.push(piece));
      reply.on('error', () => resolve([0, '']));
      // (a reply that was cut is none)
      reply.on('close', () => resolve(
        reply.complete ? [reply.statusCode, Buffer.concat(pieces).toString()] : [0, '']));
    });
    request.on('timeout', () => request.destroy());
    request.on('error', () => resolve([0, '']));
    request.end(body);
  });
}

function canonical(members) {
  for (const name of ['hosts', 'cmnds']) {
    if (members[name]) members[name] = [...new Set(members[name])].sort();
  }
  return JSON.stringify(members, Object.keys(members).sort());
}

function keep(lines) {
  let number = fs.readdirSync(folder).length;
  for (const line of lines) {
    const file = fs.openSync(`${folder}/new`, 'w');
    fs.writeSync(file, canonical(JSON.parse(line)));
    fs.fsyncSync(file);
    fs.closeSync(file);
    number += 1;
    fs.renameSync(`${folder}/new`, `${folder}/${number}.kept`);
    const there = fs.openSync(folder, 'r');
    fs.fsyncSync(there);
    fs.closeSync(there);
  }
}

function judge(status, body) {
  if (status === 200 && body === 'ack\n') return 'done';
  const [, code] = /^([A-Z]\d{1,2}) [A-Za-z]+\n$/.exec(body) || [];
  if (!code || code === 'T7') return 'again';
  if (/^[AM]/.test(code) && [400, 403, 413].includes(status)) return 'refused';
  return /^[TP]/.test(code) && [400, 403, 404, 405, 411].includes(status) ? 'mend' : 'again';
}

async function main() {
  if (at) {
    const [status, body] = await ask('GET', `/v1/open/${at}`);
    try {
      if (status !== 200) throw new Error(String(status));
      for (const it of JSON.parse(body).names) {
        console.log(it.by, it.no, it.status, (it.may_approve || { people: [] }).people.join(','));
      }
    } catch (why) {
      console.log('not known: the desk does not answer');
      process.exitCode = 3;
    }
    return;
  }
  keep(fs.readFileSync(0, 'utf8').split('\n').filter(Boolean));
  for (const name of fs.readdirSync(folder).filter((it) => it.endsWith('.kept'))) {
    const path = `${folder}/${name}`;
    const [status, body] = await ask('POST', `/v1/relays/${relay}/messages`, fs.readFileSync(path));
    const became = judge(status, body);
    if (['done', 'refused'].includes(became)) fs.renameSync(path, path.replace(/kept$/, became));
    console.log(became, body.trim(), status);
  }
}

main();
