// node wasm.js PROGRAM.wasm: runs a C program that was linked with alone.c for wasm32. What it
// writes goes to standard output; its status is what main returns.
'use strict';
const fs = require('fs');
(async () => {
  let memory = null;
  const put = (from, n) => { fs.writeSync(1, Buffer.from(memory.buffer, from >>> 0, n >>> 0)); };
  const { instance } = await WebAssembly.instantiate(fs.readFileSync(process.argv[2]), { env: { put } });
  memory = instance.exports.memory;
  process.exitCode = instance.exports.main(0, 0);
})();
