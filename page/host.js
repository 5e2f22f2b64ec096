// Runs a program of the repository that was compiled to WebAssembly. It has no dependency and is
// the same file for a page, its worker and node.
//
//   const program = await Host.load(bytes);              once: the .wasm as a Uint8Array
//   const r = await Host.run(program, asked);            as often as wanted; its memory is fresh
//
// asked.args: the words after the program's name. asked.file(name): the Uint8Array of a file, or
// undefined where there is none. asked.stdin: Uint8Array. asked.going(bytes): called now and then
// with how much was read so far. r.stdout and r.stderr are Uint8Array, r.told is what the program
// told its launcher on descriptor 9, r.trap is '' or the words of a trap (out of stack, out of
// bounds): then nothing of r is to be believed.
//
// It stands where the C library stands for the native program, and is as little proved as that is:
// each function keeps the contract of the kit's libraries libc and os, and answers with the same
// errno as Linux does for plain files. Nothing is a terminal.
(function (root) {
  'use strict';
  const ENOENT = 2, EBADF = 9, EACCES = 13, EFAULT = 14, EINVAL = 22, EMFILE = 24, ENOTTY = 25, ESPIPE = 29, EISDIR = 21;
  const PATH_MAX = 4096n, TOLD = 9, OPEN_MAX = 1024, O_ACCMODE = 3;
  const utf8 = (s) => new TextEncoder().encode(s);

  // Bytes that are written piece by piece.
  class Sink {
    constructor() { this.room = new Uint8Array(65536); this.length = 0; }
    put(bytes) {
      if (this.length + bytes.length > this.room.length) {
        const more = new Uint8Array(Math.max(2 * this.room.length, this.length + bytes.length));
        more.set(this.room.subarray(0, this.length));
        this.room = more;
      }
      this.room.set(bytes, this.length);
      this.length += bytes.length;
      return bytes.length;
    }
    bytes() { return this.room.slice(0, this.length); }
  }

  // What a program may call. `world` has memory (once it is there), words, file, sinks and open
  // descriptors.
  function calls(world) {
    const fail = (e) => { world.errno = e; return -1; };
    // The bytes that a program lends; outside its memory is an error, not a wrap.
    const lent = (p, n) => {
      const all = new Uint8Array(world.memory.buffer), from = p >>> 0, length = BigInt.asUintN(64, n);
      return BigInt(from) + length <= BigInt(all.length) ? all.subarray(from, from + Number(length)) : null;
    };
    return {
      read(fd, p, n) {
        const f = world.open.get(fd), buf = lent(p, n);
        if (!f || !f.data) return BigInt(fail(EBADF));
        if (!buf) return BigInt(fail(EFAULT));
        if (f.data.folder) return BigInt(fail(EISDIR));
        // Where it comes piece by piece (node, a pipe), the next one is asked for when it is
        // needed.
        if (f.data.more && f.at >= f.data.length) { f.data = f.data.more(); f.at = 0; }
        const got = f.data.subarray(f.at, f.at + buf.length);
        buf.set(got);
        f.at += got.length;
        world.going(got.length);
        return BigInt(got.length);
      },
      write(fd, p, n) {
        const f = world.open.get(fd), buf = lent(p, n);
        if (!f || !f.sink) return BigInt(fail(EBADF));
        if (!buf) return BigInt(fail(EFAULT));
        const put = f.sink.put(buf);
        return BigInt(put < 0 ? fail(-put) : put);
      },
      lseek(fd, offset, whence) {
        const f = world.open.get(fd);
        if (!f) return BigInt(fail(EBADF));
        if (!f.data || f.once) return BigInt(fail(ESPIPE));
        const base = whence === 0 ? 0n : whence === 1 ? BigInt(f.at) : whence === 2 ? BigInt(f.data.length) : -1n, to = base + offset;
        if (base < 0n || to < 0n || to > 0x1fffffffffffffn) return BigInt(fail(EINVAL));
        f.at = Number(to);
        return to;
      },
      isatty(fd) { world.errno = world.open.has(fd) ? ENOTTY : EBADF; return 0; },
      // The time since 1970, for what says how far long work is; without a terminal nobody asks.
      clock_gettime(_, p) {
        const buf = lent(p, 16n);
        if (!buf) return fail(EFAULT);
        const now = Date.now(), view = new DataView(buf.buffer, buf.byteOffset, 16);
        view.setBigInt64(0, BigInt(Math.floor(now / 1000)), true);
        view.setBigInt64(8, BigInt(now % 1000) * 1000000n, true);
        return 0;
      },
      close(fd) { return world.open.delete(fd) ? 0 : fail(EBADF); },
      // Files are there to be read. The name of the launcher's pipe opens that pipe.
      open(p, flags) {
        const buf = lent(p, PATH_MAX);
        if (!buf) return fail(EFAULT);
        let name;
        try { name = new TextDecoder('utf-8', { fatal: true, ignoreBOM: true }).decode(buf.slice(0, buf.indexOf(0))); } catch (_) { return fail(ENOENT); }
        const pipe = name === '/proc/self/fd/' + TOLD && world.open.get(TOLD), data = pipe ? null : world.file(name);
        if (!pipe && !data) return fail(ENOENT);
        if (!pipe && (flags & O_ACCMODE) !== 0) return fail(data.folder ? EISDIR : EACCES);
        let fd = 3;
        while (world.open.has(fd)) fd++;
        if (fd >= OPEN_MAX) return fail(EMFILE);
        world.open.set(fd, pipe ? { sink: pipe.sink } : { data, at: 0, once: data.once === true });
        return fd;
      },
      rattle_errno() { return world.errno; },
      rattle_set_errno(e) { world.errno = e; },
      rattle_arg_count() { return BigInt(world.words.length); },
      rattle_arg(i, p, n) {
        const buf = lent(p, n), at = BigInt.asUintN(64, i);
        if (at >= BigInt(world.words.length) || !buf) return -1n;
        const word = world.words[Number(at)];
        buf.set(word.subarray(0, buf.length));
        return word.length > buf.length ? -2n : BigInt(word.length);
      },
    };
  }

  // Compiles a program. The stack must lie first in its memory: what needs more than there is traps
  // then, and never runs into its data.
  function load(bytes) { return WebAssembly.compile(bytes); }

  async function run(program, asked) {
    const out = asked.out || new Sink(), err = asked.err || new Sink(), told = new Sink(), stdin = asked.stdin || new Uint8Array(0);
    let read = 0;
    const world = {
      errno: 0, memory: null, file: asked.file || (() => undefined),
      words: ['program'].concat(asked.args || []).map((a) => (typeof a === 'string' ? utf8(a) : a)),
      going: (n) => { read += n; if (asked.going) asked.going(read); },
      open: new Map([[0, { data: stdin, at: 0, once: stdin.plain !== true }], [1, { sink: out }], [2, { sink: err }], [TOLD, { sink: told }]]),
    };
    for (const fd of asked.closed || []) world.open.delete(fd);
    const instance = await WebAssembly.instantiate(program, { env: calls(world) });
    if (instance.exports.__stack_low.value !== 0) throw new Error('the stack does not lie first');
    world.memory = instance.exports.memory;
    let trap = '';
    try { instance.exports.main(0, 0); } catch (e) {
      if (e && e.gone) throw e;
      trap = String((e && e.message) || e);
    }
    return { stdout: asked.out ? null : out.bytes(), stderr: asked.err ? null : err.bytes(), told: new TextDecoder().decode(told.bytes()), trap };
  }

  // What the launcher makes of what a program told it: the exit status, and its own line where the
  // program wrote none. `launcher.words` are its words, by digit; `launcher.usage` is how each
  // program is called.
  function ended(name, told, launcher) {
    const digit = told.replace(/\n+$/, '').slice(-1);
    if (digit === '') return { status: 0, line: '' };
    if (digit === '1' || digit === '2') return { status: Number(digit), line: '' };
    const call = (launcher.usage[name] || [''])[0];
    if (digit === '5') return { status: 2, line: name + ': usage: ' + name + (call ? ' ' + call : '') + '\n' };
    return { status: 2, line: name + ': ' + (launcher.words[digit] || 'told what it ought not to: ' + told) + '\n' };
  }

  const Host = { load, run, ended, Sink };
  if (typeof module !== 'undefined' && module.exports) module.exports = Host; else root.Host = Host;
})(typeof globalThis !== 'undefined' ? globalThis : this);
