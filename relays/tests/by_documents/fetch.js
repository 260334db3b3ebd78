#!/usr/bin/node
// fetch.js SOCKET HOST FILE STATE: a fetcher in JavaScript, by docs/HTTP.md alone. STATE has what
// FILE is made of. Status 1: FILE stays as it is.
'use strict';
const crypto = require('crypto');
const fs = require('fs');
const http = require('http');
const { execFileSync } = require('child_process');
const [socketPath, host, file, state] = process.argv.slice(2);

// The body of a 200 that came whole.
function ask(path) {
  return new Promise((resolve, reject) => {
    const request = http.get({ socketPath, path, timeout: 60000 }, (reply) => {
      const pieces = [];
      reply.on('data', (piece) => pieces.push(piece));
      reply.on('error', reject);
      reply.on('close', () => {
        const body = Buffer.concat(pieces);
        const isWhole = reply.complete && Number(reply.headers['content-length']) === body.length;
        if (reply.statusCode !== 200) reject(new Error(`status ${reply.statusCode}`));
        else if (!isWhole) reject(new Error('nobody sees whether it came whole'));
        else resolve(body.toString('latin1'));
      });
    });
    request.on('timeout', () => request.destroy(new Error('late')));
    request.on('error', reject);
  });
}

const ITEM = '!?(?:[a-z_][a-z0-9._-]*|[A-Z][A-Z0-9_]*)';
const ITEMS = `${ITEM}(?:, ${ITEM})*`;
const ALIAS = '(?:User|Runas|Host|Cmnd)_Alias [A-Z][A-Z0-9_]* = [ -~]+';
const LINE = new RegExp(`^(?:${ITEMS} ${ITEMS} = \\(${ITEMS}\\) [ -~]+|${ALIAS})$`);

function check(text, base) {
  if (text && !text.endsWith('\n')) throw new Error('its last line has no end');
  const lines = text.split('\n').slice(0, -1);
  const odd = lines.find((line) => !LINE.test(line));
  if (odd !== undefined) throw new Error(`a line is no desk's: ${odd}`);
  const digest = crypto.createHash('sha256');
  let begins = digest.copy().digest('hex') === base;
  for (const line of lines) {
    begins = begins || digest.update(`${line}\n`).copy().digest('hex') === base;
  }
  if (!begins) throw new Error('it does not begin with its base');
}

async function compare(count, made) {
  if (!fs.existsSync(state)) return;
  const [, before, was] = /^(\d+) (.*)\n$/.exec(fs.readFileSync(state, 'utf8'));
  if (BigInt(count) < BigInt(before)) throw new Error('the desk is behind');
  if (made === was) return;
  const past = (await ask('/v1/history')).split('\n').slice(0, -1);
  if (!past.pop().endsWith(` ${made}`)) throw new Error('its history is another one');
  const isThere = past.some((line) => line.endsWith(` ${was}`));
  if (!isThere) throw new Error('its history lacks what was here');
}

function put(path, text, mode, checked) {
  const there = fs.openSync(`${path}.new~`, 'w', mode);
  fs.writeSync(there, text, null, 'latin1');
  fs.fchmodSync(there, mode);
  fs.fsyncSync(there);
  fs.closeSync(there);
  checked(`${path}.new~`);
  fs.renameSync(`${path}.new~`, path);
}

async function main() {
  const hourAgo = new Date(Date.now() - 3600e3).toISOString().slice(0, 19).replace(/\D/g, '');
  const body = await ask(`/v1/hosts/${host}/at/${hourAgo}Z`);
  const found = /^(0|[1-9]\d*) ([0-9a-f]{64}) ([0-9a-f]{64})\n/.exec(body);
  if (!found) throw new Error('no count');
  const [first, count, roster, base] = found;
  const text = body.slice(first.length);
  check(text, base);
  await compare(count, `${roster} ${base}`);
  // (what it will not go below is on the disk before the file)
  put(file, text, 0o440, (path) => {
    execFileSync('visudo', ['-qcf', path]);
    put(state, first, 0o600, () => {});
  });
  console.log(`taken: ${count} messages`);
}

main().catch((why) => {
  console.log(`the file stays: ${why.message}`);
  process.exitCode = 1;
});
