// The worker's half: programs and files are put there once, runs name them. What it is told is what
// bench.js sends; host.js stands above it.
const programs = new Map(), files = new Map();
async function work(asked) {
  let shown = performance.now();
  const going = (bytes) => {
    const now = performance.now();
    if (now - shown > 200) { shown = now; postMessage({ turn: asked.turn, going: bytes }); }
  };
  const file = (name) => (asked.files.has(name) ? files.get(asked.files.get(name)) : undefined);
  return Host.run(await programs.get(asked.name), { args: asked.args, file, stdin: asked.stdin, going });
}
onmessage = async ({ data }) => {
  if (data.program) programs.set(data.program, Host.load(data.bytes));
  else if (data.file) files.set(data.file, data.bytes);
  else if (data.drop) files.delete(data.drop);
  else {
    try {
      const result = await work(data);
      postMessage({ turn: data.turn, result }, [result.stdout.buffer, result.stderr.buffer]);
    } catch (e) { postMessage({ turn: data.turn, failed: String((e && e.message) || e) }); }
  }
};
