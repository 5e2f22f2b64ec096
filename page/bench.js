// Runs programs: in a worker, so that the page answers while they work and a run can be stopped;
// where a browser allows no worker, in the page itself.
'use strict';
const $ = (id) => document.getElementById(id);
const bytesOf = (b64) => Uint8Array.from(atob(b64), (c) => c.charCodeAt(0));
const textOf = (b) => new TextDecoder().decode(b);
const utf8 = (s) => new TextEncoder().encode(s);

// A run that was stopped, or that nobody waits for any more.
class Stopped extends Error {}

const Bench = {
  worker: null, known: new Set(), waiting: new Map(), turn: 0, going: null, loaded: {},

  start() {
    const source = new Blob([$('host.js').textContent, '\n', $('work.js').textContent], { type: 'text/javascript' }), place = URL.createObjectURL(source);
    this.worker = new Worker(place);
    this.known = new Set();
    this.worker.onmessage = ({ data }) => {
      const asked = this.waiting.get(data.turn);
      if (!asked) return;
      if (data.going !== undefined) { if (this.going) this.going(asked.name, data.going); return; }
      this.waiting.delete(data.turn);
      if (data.failed) asked.no(new Error(data.failed)); else asked.yes(data.result);
    };
    // A worker that does not start is done without: what waits for it is run in the page.
    this.worker.onerror = (e) => {
      e.preventDefault();
      const left = [...this.waiting.values()];
      this.waiting.clear();
      this.worker.terminate();
      this.worker = undefined;
      for (const asked of left) asked.again();
    };
  },

  // Ends what is under way.
  stop() {
    if (!this.waiting.size) return;
    this.worker.terminate();
    this.worker = null;
    for (const asked of this.waiting.values()) asked.no(new Stopped('stopped'));
    this.waiting.clear();
  },

  // NAME ARGS.. over files (a Map from names to { id, bytes }) and standard input. What is answered
  // has stdout, stderr with the launcher's line, status, trap and the time in ms.
  async run(name, args, files, stdin) {
    const began = performance.now(), mine = turn, r = await this.inWorker(name, args, files || new Map(), stdin || new Uint8Array(0));
    if (mine !== turn) throw new Stopped('stopped');
    const ended = Host.ended(name, r.told, LAUNCHER), line = utf8(ended.line), stderr = new Uint8Array(r.stderr.length + line.length);
    stderr.set(r.stderr);
    stderr.set(line, r.stderr.length);
    return { name, args, stdout: r.stdout, stderr, status: ended.status, trap: r.trap, time: performance.now() - began };
  },

  inWorker(name, args, files, stdin) {
    if (this.worker === null && typeof Worker !== 'undefined') try { this.start(); } catch (_) { this.worker = undefined; }
    if (!this.worker) return this.inPage(name, args, files, stdin);
    const put = (key, message) => { if (!this.known.has(key)) { this.known.add(key); this.worker.postMessage(message); } };
    put('program ' + name, { program: name, bytes: bytesOf(PROGRAMS[name]) });
    for (const f of files.values()) put(f.id, { file: f.id, bytes: f.bytes });
    const turn = ++this.turn, worker = this.worker;
    return new Promise((yes, no) => {
      this.waiting.set(turn, { name, yes, no, again: () => this.inPage(name, args, files, stdin).then(yes, no) });
      worker.postMessage({ turn, name, args, files: new Map([...files].map(([n, f]) => [n, f.id])), stdin });
    });
  },

  async inPage(name, args, files, stdin) {
    const program = await (this.loaded[name] || (this.loaded[name] = Host.load(bytesOf(PROGRAMS[name]))));
    return Host.run(program, { args, file: (n) => (files.has(n) ? files.get(n).bytes : undefined), stdin });
  },
};
