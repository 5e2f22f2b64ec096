// node serve.js ROOM WASM DATA: stands for ./run with the programs as WebAssembly, for as many
// callers at a time as there are. ROOM/requests is a pipe; a caller (tests/page/stand-in) writes
// its process number there, after it has left its closed descriptors, its folder and its words in
// ROOM/call.PID, and waits for the status on the pipe ROOM/reply.PID. Its files, descriptors and
// folder are reached through /proc/PID. Each call is a thread's, which may wait for a pipe. DATA is
// the page's own data.js: the launcher's words.
'use strict';
const { Worker, isMainThread, parentPort, workerData } = require('worker_threads'), fs = require('fs'), path = require('path'), vm = require('vm');
const Host = require('../../page/host.js');

// A descriptor of the caller that is written to: at once, and what goes wrong is an errno. What
// goes to a plain file is left in ROOM/out.PID or err.PID, and the caller writes it, since only it
// knows where in the file it stands.
function sinkOf(pid, fd) {
  const name = '/proc/' + pid + '/fd/' + fd, s = fs.statSync(name);
  if (s.isFile()) {
    const kept = new Host.Sink();
    return { put: (bytes) => kept.put(bytes), close: () => { if (kept.length) fs.writeFileSync(workerData.room + '/' + (fd === 1 ? 'out.' : 'err.') + pid, kept.bytes()); } };
  }
  const to = fs.openSync(name, 'a'), errno = { ENOSPC: 28, EIO: 5, EBADF: 9 };
  return {
    close: () => fs.closeSync(to),
    put(bytes) {
      for (let at = 0; at < bytes.length;) {
        try { at += fs.writeSync(to, bytes, at); } catch (e) {
          if (e.code === 'EPIPE') throw Object.assign(new Error('nobody reads'), { gone: true });
          if (e.code !== 'EAGAIN') return -(errno[e.code] || 5);
        }
      }
      return bytes.length;
    },
  };
}
// What is read: a plain file whole, anything else piece by piece as it is asked for.
function sourceOf(name, opened, from) {
  let s;
  try { s = fs.statSync(name); } catch (_) { return undefined; }
  if (s.isDirectory()) return Object.assign(new Uint8Array(0), { folder: true });
  let fd;
  try { fd = fs.openSync(name, 'r'); } catch (_) { return undefined; }
  opened.push(fd);
  if (s.isFile()) { const whole = new Uint8Array(fs.readFileSync(fd)); return Object.assign(from ? whole.slice(from) : whole, { plain: true }); }
  const piece = Buffer.alloc(65536);
  const more = () => {
    for (;;) {
      try { return Object.assign(new Uint8Array(piece.subarray(0, fs.readSync(fd, piece, 0, piece.length, null))), { once: true, more }); } catch (e) {
        if (e.code !== 'EAGAIN') return Object.assign(new Uint8Array(0), { once: true, more });
        Atomics.wait(new Int32Array(new SharedArrayBuffer(4)), 0, 0, 5);
      }
    }
  };
  return Object.assign(new Uint8Array(0), { once: true, more });
}

const programs = new Map();
async function call(pid) {
  const [shut, folder, name, ...args] = fs.readFileSync(workerData.room + '/call.' + pid, 'utf8').split('\0').slice(0, -1), opened = [];
  const here = (n) => (/^\/dev\/(stdin)$/.test(n) ? '/proc/' + pid + '/fd/0' : n.replace(/^\/(dev|proc\/self)\/fd\//, '/proc/' + pid + '/fd/'));
  const file = (n) => (n === '' ? undefined : sourceOf(path.resolve(folder, here(n)), opened, 0));
  const closed = shut.split(' ').filter((w) => w).map(Number), out = closed.includes(1) ? null : sinkOf(pid, 1), err = closed.includes(2) ? null : sinkOf(pid, 2);
  let status = 2;
  try {
    const bytes = workerData.wasm + '/' + name + '.wasm';
    if (!fs.existsSync(bytes)) { err.put(Buffer.from('stand-in: there is no program ' + name + '\n')); return 2; }
    if (!programs.has(name)) programs.set(name, await Host.load(fs.readFileSync(bytes)));
    const at = closed.includes(0) ? 'pos: 0' : fs.readFileSync('/proc/' + pid + '/fdinfo/0', 'utf8');
    const stdin = closed.includes(0) ? undefined : sourceOf('/proc/' + pid + '/fd/0', opened, Number(/pos:\s*(\d+)/.exec(at)[1]));
    const r = await Host.run(programs.get(name), { args, file, stdin, out: out || new Host.Sink(), err: err || new Host.Sink(), closed });
    if (r.trap) { if (err) err.put(Buffer.from(name + ': trap: ' + r.trap + '\n')); return 134; }
    const ended = Host.ended(name, r.told, workerData.launcher);
    if (ended.line && err) err.put(Buffer.from(ended.line));
    status = ended.status;
  } catch (e) {
    if (!e.gone) throw e;
    status = 141;
  } finally {
    for (const fd of opened) fs.closeSync(fd);
    for (const s of [out, err]) if (s) s.close();
  }
  return status;
}

if (isMainThread) {
  const [room, wasm, data] = process.argv.slice(2), launcher = vm.runInNewContext(fs.readFileSync(data, 'utf8') + ';LAUNCHER'), idle = [];
  const start = (pid) => {
    const w = new Worker(__filename, { workerData: { room, wasm, launcher: JSON.parse(JSON.stringify(launcher)) } });
    w.on('message', () => idle.push(w));
    w.on('error', (e) => { console.error(e); process.exit(1); });
    w.postMessage(pid);
  };
  const requests = fs.createReadStream(room + '/requests', { flags: 'r+' });
  let rest = '';
  requests.on('data', (d) => {
    const lines = (rest + d).split('\n');
    rest = lines.pop();
    for (const pid of lines) {
      if (pid === 'end') process.exit(0);
      const w = idle.pop();
      if (w) w.postMessage(pid); else start(pid);
    }
  });
} else {
  parentPort.on('message', async (pid) => {
    let status = 70;
    try { status = await call(pid); } catch (e) { console.error(e); }
    try { fs.writeFileSync(workerData.room + '/reply.' + pid, status + '\n'); } catch (_) {}
    parentPort.postMessage('idle');
  });
}
