// A language server that runs as a child: JSON-RPC over its standard input and output.
"use strict";
const { spawn } = require("node:child_process");

// What the user is told of a program that is no server, or no longer.
const faultOf = (program, what) => `The program '${program}' ${what}; the setting rvls.path names it.`;

// What is said of one that cannot be started.
const startFault = (program, { code }) => faultOf(program, code === "ENOENT" ? "was not found" : `cannot be started (${code})`);

// A header has no more bytes than this; what goes on without an end is none.
const MAX_HEADER = 4096;

// The bodies of the messages whose bytes are all there, the bytes after them, and how many bytes there are when the next body is complete, if that
// is known; or nothing if these are no messages.
function framesIn(bytes) {
  const bodies = [];
  for (;;) {
    const head = bytes.indexOf("\r\n\r\n");
    if (head < 0) return bytes.length > MAX_HEADER ? undefined : { bodies, rest: bytes, needed: 0 };
    const length = /^content-length: *(\d+)/im.exec(bytes.toString("latin1", 0, head));
    if (!length) return undefined;
    const end = head + 4 + Number(length[1]);
    if (bytes.length < end) return { bodies, rest: bytes, needed: end };
    bodies.push(bytes.toString("utf8", head + 4, end));
    bytes = bytes.subarray(end);
  }
}

class Connection {
  // Starts a program. `notified` is called with the method and the parameters of each notification, and `ended` once with the reason, in a
  // sentence, unless the server is stopped before.
  constructor(program, notified, ended) {
    Object.assign(this, { program, notified, ended, reason: undefined });
    Object.assign(this, { requests: 0, waiting: new Map(), chunks: [], size: 0, needed: 0 });
    this.child = spawn(program, { stdio: ["pipe", "pipe", "ignore"] });
    this.child.on("error", (fault) => this.fail(startFault(program, fault)));
    this.child.on("close", (status, signal) => this.fail(faultOf(program, `ended unexpectedly (${signal ?? `status ${status}`})`)));
    // What is written to a program that has ended is lost; 'close' says that it has.
    this.child.stdin.on("error", () => {});
    this.child.stdout.on("data", (chunk) => this.read(chunk));
  }

  request(method, params) {
    return new Promise((resolve, reject) => {
      if (this.reason) {
        reject(new Error(this.reason));
        return;
      }
      this.requests += 1;
      this.waiting.set(this.requests, { resolve, reject });
      this.send({ id: this.requests, method, params });
    });
  }

  notify(method, params) {
    this.send({ method, params });
  }

  // Ends the session as the protocol wants it.
  async stop() {
    this.ended = () => {};
    await this.request("shutdown").catch(() => {});
    this.notify("exit");
  }

  // Ends the session at once, and says why to those who wait for answers.
  fail(reason) {
    if (this.reason) return;
    this.reason = reason;
    this.child.kill();
    for (const { reject } of this.waiting.values()) reject(new Error(reason));
    this.waiting.clear();
    this.ended(reason);
  }

  send(message) {
    const body = JSON.stringify({ jsonrpc: "2.0", ...message });
    this.child.stdin.write(`Content-Length: ${Buffer.byteLength(body)}\r\n\r\n${body}`);
  }

  // A long message comes in many pieces, which are joined when all are there.
  read(chunk) {
    this.chunks.push(chunk);
    this.size += chunk.length;
    if (this.size < this.needed || this.reason) return;
    const found = framesIn(Buffer.concat(this.chunks));
    if (!found) {
      this.fail(faultOf(this.program, "writes what no language server does"));
      return;
    }
    Object.assign(this, { chunks: [found.rest], size: found.rest.length, needed: found.needed });
    for (const body of found.bodies) this.take(JSON.parse(body));
  }

  take({ id, method, params, result, error }) {
    if (method) {
      this.notified(method, params);
      return;
    }
    const waiting = this.waiting.get(id);
    this.waiting.delete(id);
    if (error) waiting?.reject(new Error(error.message));
    else waiting?.resolve(result);
  }
}

module.exports = { Connection, startFault };
