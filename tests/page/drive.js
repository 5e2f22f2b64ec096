// node drive.js CHROMIUM ROOT ROOM: drives target/page/page.html in a headless Chromium, as a
// person does: drops, files, keys, buttons. What it shows and saves is compared with what the
// native programs write. Its last line is 'N passed, M failed'. With SHOTS=FOLDER it leaves
// pictures of every tab there, at 400 and at 1,200 pixels.
'use strict';
const fs = require('fs'), http = require('http'), path = require('path'), { spawnSync } = require('child_process');
const Chromium = require('./chromium.js');
const [chromium, root, room] = process.argv.slice(2), samples = path.join(root, 'samples'), shots = process.env.SHOTS;
let passed = 0, failed = 0;
const report = (name, good, more) => { if (good) passed++; else { failed++; console.log('FAILED page: ' + name + ': ' + String(more).slice(0, 300)); } };
const pause = (ms) => new Promise((yes) => setTimeout(yes, ms));
const native = (name, args, stdin) => spawnSync(path.join(root, 'run'), [name, ...args], { cwd: samples, input: stdin || '', maxBuffer: 1 << 28, encoding: 'latin1' });
const lines = (name, ...args) => native(name, args).stdout.replace(/\n$/, '');

(async () => {
  const c = await Chromium.start(chromium, path.join(room, 'profile'));
  const settle = () => c.evaluate("new Promise(async (yes) => { for (let i = 0; i < 2400; i++) { const t = turn; await new Promise((r) => setTimeout(r, 25)); if (t === turn && document.body.dataset.done === String(t)) return yes(true); } yes(false); })");
  const press = async (text, n) => { await c.evaluate('[...document.querySelectorAll("button")].filter((b) => b.textContent === ' + JSON.stringify(text) + ')[' + (n || 0) + '].click()'); await settle(); };
  const out = (n) => c.evaluate('(document.querySelectorAll("#results pre")[' + (n || 0) + '] || {}).textContent');
  const said = (n) => c.evaluate('(document.querySelectorAll(".said")[' + (n || 0) + '] || {}).textContent');
  const after = async (act) => { const was = await c.evaluate('turn'); await act(); for (let i = 0; i < 200 && (await c.evaluate('turn')) === was; i++) await pause(25); await settle(); };
  const drop = (...files) => after(() => c.drop(200, 300, files));
  const choose = (selector, ...files) => after(() => c.files(selector, files));
  const value = (id, text) => c.evaluate('(() => { const e = $(' + JSON.stringify(id) + '); e.value = ' + JSON.stringify(text) + '; e.dispatchEvent(new Event("change")); })()').then(settle);
  const fresh = async () => { await c.open('file://' + root + '/target/page/page.html'); await settle(); };
  const compare = async (name, wanted, n) => { const got = await out(n); report(name, got === wanted, JSON.stringify(got) + ' for ' + JSON.stringify(wanted)); };
  const file = (name, bytes) => { const f = path.join(room, name); fs.writeFileSync(f, bytes); return f; };
  try {
    await c.width(1200);
    await fresh();
    const tabs = await c.evaluate('[...document.querySelectorAll("[role=tab]")].map((b) => b.textContent)');
    const wanted = Object.entries({ Listing: 'checker', Reasons: 'explain', Picture: 'draw', Step: 'view', Accept: 'accept', Smaller: 'compact', Records: 'records', Lead: 'record', Balise: 'balise' }).filter(([, p]) => fs.existsSync(root + '/target/page/' + p + '.wasm')).map(([t]) => t);
    report('a tab for each program that is there', tabs.join() === wanted.join(), tabs);

    // ---- samples, and each tab
    await press('every line');
    await compare('listing', lines('checker', 'every-line.trace'));
    await press('Reasons');
    await compare('reasons', lines('explain', 'every-line.trace'));
    report('the call', (await c.evaluate('document.querySelector(".call code").textContent')) === './run explain every-line.trace', 'another');
    await press('Accept');
    await compare('acceptance', lines('accept', 'track.plan', '20', 'every-line.trace'));
    report('its status', (await c.evaluate('document.querySelector(".call").textContent')).includes('status 1'), 'another');
    await value('tolerance', '501');
    await compare('a tolerance that is refused', lines('accept', 'track.plan', '501', 'every-line.trace'));
    await value('tolerance', 'x');
    report('a tolerance that is none', (await said()) === 'accept: TOLERANCE is no figure: x', await said());
    await value('tolerance', '30');
    await c.evaluate('$("planText").value = "1000 signal\\n4000 line\\n"');
    await after(() => c.evaluate('$("usePlan").click()'));
    const plan = native('plan', [file('typed.txt', '1000 signal\n4000 line\n')]).stdout;
    await compare('a plan typed in', lines('accept', file('typed.plan', Buffer.from(plan, 'latin1')), '30', 'every-line.trace'));
    await c.evaluate('$("planText").value = "1000 nonsense\\n"');
    await after(() => c.evaluate('$("usePlan").click()'));
    const refused = native('plan', [file('plan.txt', '1000 nonsense\n')]).stderr.trimEnd();
    report('a plan that is refused, in its words', (await said()) === refused, (await said()) + ' for ' + refused);
    await choose('#pickPlan', path.join(samples, 'track.txt'));
    await value('tolerance', '20');
    await compare('a plan as a text', lines('accept', 'track.plan', '20', 'every-line.trace'));
    await press('Smaller');
    report('smaller', (await said()) === native('compact', ['every-line.trace']).stderr.trimEnd() && (await c.evaluate('$("results").textContent')).includes('every line is the same'), await said());
    await press('Records').then(() => compare('records', lines('records', 'every-line.trace')));
    if (tabs.includes('Picture')) {
      await press('Picture');
      const shown = await c.evaluate('document.querySelector("iframe").srcdoc'), drawn = Buffer.from(native('draw', ['every-line.trace']).stdout, 'latin1').toString('utf8');
      report('picture', shown === drawn && drawn.includes('<svg'), shown.length + ' for ' + drawn.length);
      report('the picture is seen', await c.evaluate('document.querySelector("iframe").contentDocument.querySelectorAll("svg").length > 0 && document.querySelector("iframe").offsetHeight > 200'), 'not');
      if (await c.evaluate('drawsPlans')) {
        await after(() => c.evaluate('$("withPlan").click()'));
        const planned = Buffer.from(native('draw', ['-p', 'track.plan', '20', 'every-line.trace']).stdout, 'latin1').toString('utf8');
        report('picture with the plan', (await c.evaluate('document.querySelector("iframe").srcdoc')) === planned, 'another');
      }
    }

    // ---- steps
    const steps = [];
    await press('Step');
    const stepped = async (name) => { const got = await out(), all = native('view', ['every-line.trace'], steps.map((s) => s + '\n').join('')).stdout, before = native('view', ['every-line.trace'], steps.slice(0, -1).map((s) => s + '\n').join('')).stdout; report(name, got === all.slice(before.length).replace(/\n$/, ''), got); };
    for (const [text, command] of [['Forward ▶', 'f'], ['10 ▶', 'f 10'], ['◀ Back', 'b']]) { await press(text); steps.push(command); await stepped('step by a button: ' + command); }
    for (const [key, command] of [['ArrowRight', 'f'], ['ArrowRight', 'f'], ['PageDown', 'f 10'], ['ArrowLeft', 'b'], ['PageUp', 'b 10']]) { await after(() => c.key(key)); steps.push(command); await stepped('step by a key: ' + command); }
    for (const [n, id, text, command] of [[1, 'toPlace', '16000', 'p 16000'], [2, 'command', '?', '?'], [0, 'toRecord', '3', 'g 3']]) { await c.evaluate('$("' + id + '").value = "' + text + '"'); await press('Go', n); steps.push(command); await stepped('by a field: ' + command); }

    // ---- cards: dropped, in another order, removed; a text; a bad one
    await fresh();
    const all = fs.readFileSync(path.join(samples, 'every-line.trace'));
    fs.mkdirSync(path.join(room, 'other'));
    const first = file('same.trace', all.subarray(0, 88)), second = file('other/same.trace', all.subarray(88));
    await drop(first, second);
    await compare('two cards of one name, dropped', lines('checker', first, second));
    for (const [name, cards] of [['in the other order', [second, first]], ['and back', [first, second]]]) { await press('↓'); await compare(name, lines('checker', ...cards)); }
    await press('remove').then(() => compare('one removed', lines('checker', second)));
    await press('remove').then(() => drop(path.join(samples, 'workshop.txt')));
    await compare('a text, made a trace', lines('checker', 'workshop.trace'));
    await choose('#pickSettings', path.join(samples, 'workshop.settings'));
    await compare('settings', lines('checker', '-s', 'workshop.settings', 'workshop.trace'));
    await c.evaluate('$("settingsText").value = "0 40 72\\n"');
    await after(() => c.evaluate('$("useSettings").click()'));
    await compare('settings typed in, and refused', lines('checker', '-s', file('bad.settings', '0 40 72\n'), 'workshop.trace'));
    await fresh();
    await choose('#pickCards', file('cut.trace', all.subarray(0, 23)));
    await compare('a card that is cut', 'trace refused 16');
    await fresh();
    await drop(file('bad.txt', '1000 1 8\n'));
    report('a text that is refused, in its words', (await said()) === native('trace', [path.join(room, 'bad.txt')]).stderr.trimEnd().replace(path.join(room, 'bad.txt'), 'bad.txt'), await said());
    await press('Records');
    await c.evaluate('$("typed").value = "1000 1 8 5\\n1030 9 2 4\\n6000 position\\n"');
    await after(() => c.evaluate('$("useTyped").click()'));
    await compare('records typed in, and back', lines('records', 'one-ride.trace'));
    await press('Listing').then(() => compare('and listed', lines('checker', 'one-ride.trace')));

    // ---- a lead, a balise
    await fresh();
    await drop(path.join(samples, 'one-ride.lead'));
    report('a lead', (await said()) === native('record', ['72', '0D', 'one-ride.lead']).stderr.trimEnd(), await said());
    await press('Reasons').then(() => compare('and its reasons', lines('explain', 'one-ride.trace')));
    await press('Lead');
    await value('syncT', '0E');
    report('a pair that is refused', (await said()) === native('record', ['72', '0E', 'one-ride.lead']).stderr.trimEnd(), await said());
    await value('syncT', '0D').then(() => press('Balise'));
    const cable = file('cable', Buffer.from(native('balise', ['1', '8', '5', '72', '0D', '9', '3']).stdout, 'latin1'));
    report('written', (await out(0)).replace(/\s/g, '').toLowerCase() === fs.readFileSync(cable).toString('hex'), await out(0));
    await compare('heard', lines('listen', cable, '72', '0D'), 1);
    await compare('audible', lines('audible', '72', '0D'), 2);
    await value('telegram', '12 1612');
    await compare('a number heard', lines('listen', file('cable', Buffer.from(native('balise', ['12', '1612', '72', '0D', '9', '3']).stdout, 'latin1')), '72', '0D'), 1);
    await value('telegram', '16 8 5');
    report('a figure that is refused', (await said()) === native('balise', ['16', '8', '5', '72', '0D', '9', '3']).stderr.trimEnd(), await said());

    // ---- a million records: the beginning is shown, all is saved, and it is seen that work goes
    // on
    const many = Buffer.alloc(8e6);
    for (let i = 0; i < 1e6; i++) { many.writeUInt32BE(i, 8 * i); many[8 * i + 4] = 4; }
    const million = file('million.trace', many);
    await fresh();
    await choose('#pickCards', million);
    const shown = await out();
    report('a million records: the beginning', shown.split('\n').length === 4000 && shown.startsWith('record 1 refused 16\n') && (await c.evaluate('document.querySelector("#results .bad").textContent')).includes('1,000,000 lines'), shown.length);
    await c.send('Browser.setDownloadBehavior', { behavior: 'allow', downloadPath: path.join(room, 'saved') });
    await c.evaluate('[...document.querySelectorAll("button")].find((b) => b.textContent === "Save as text").click()');
    const whole = native('checker', [million]).stdout, saved = path.join(room, 'saved', 'listing.txt');
    for (let i = 0; i < 400 && !(fs.existsSync(saved) && fs.statSync(saved).size === whole.length); i++) await pause(25);
    report('a million records: saved whole', fs.existsSync(saved) && fs.readFileSync(saved, 'latin1') === whole, whole.length);
    await press('Reasons').then(() => c.evaluate('$("tabListing").click(), $("tabReasons").click()')).then(settle);
    report('a run that nobody waits for any more is ended', (await c.evaluate('document.querySelector(".call code").textContent')) === './run explain million.trace' && (await out()).startsWith(lines('explain', million).slice(0, 4000)), await out());
    // Each run is held up for a second here, so that it is seen on any machine.
    await c.evaluate('Bench.inWorker = ((own) => (...asked) => new Promise((yes) => setTimeout(yes, 1000)).then(() => own.apply(Bench, asked)))(Bench.inWorker)');
    for (const stops of [false, true]) {
      await c.evaluate('$("tabListing").click()');
      let seen = '';
      for (let i = 0; i < 200 && !seen; i++) { seen = await c.evaluate('($("stop") && $("busy").textContent) || ""'); await pause(25); }
      report('work that goes on is seen', /^Working.* \.\. \d+ s Stop$/.test(seen), seen);
      if (stops) await c.evaluate('$("stop").click()').then(() => pause(1500)); else await settle();
      report(stops ? 'and can be stopped' : 'and comes to its end', stops ? (await c.evaluate('$("busy").textContent + $("results").textContent')) === 'Stopped.' : (await out()).startsWith('record 1 refused 16\n'), await c.evaluate('$("busy").textContent'));
    }
    await fresh();

    // ---- without a worker, and with one that fails
    for (const how of ['Bench.worker = undefined', 'Bench.worker = null, $("work.js").textContent = "throw 1"']) { await c.evaluate(how); await press('every line'); await compare('without a worker: ' + how, lines('checker', 'every-line.trace')); }
    await fresh();

    // ---- without a mouse; widths; print; the foot; what was asked of the network
    await press('every line');
    await c.evaluate('$("tabListing").focus()');
    await after(() => c.key('ArrowRight'));
    await compare('the next tab by a key', lines('explain', 'every-line.trace'));
    report('it has the focus', (await c.evaluate('document.activeElement.textContent')) === 'Reasons', 'another');
    await after(() => c.key('End'));
    report('the last tab by a key', (await c.evaluate('tab')) === tabs[tabs.length - 1], await c.evaluate('tab'));
    for (const width of [400, 1200]) {
      await c.width(width);
      for (const name of tabs) {
        if (name === 'Lead') await press('a lead'); else await press(name);
        const over = await c.evaluate('[document.documentElement.scrollWidth, innerWidth, [...document.querySelectorAll("body *")].filter((e) => e.getBoundingClientRect().right > innerWidth + 1 && !e.closest("pre")).map((e) => e.tagName).join()]');
        report(name + ' fits ' + width + ' pixels', over[0] <= over[1] && over[2] === '', over);
        if (shots) fs.writeFileSync(path.join(shots, name + '-' + width + '.png'), await c.shot(true));
      }
      await press('every line');
    }
    await press('Listing');
    await c.send('Emulation.setEmulatedMedia', { media: 'print' });
    report('in print: the lines and what they are of, nothing else', await c.evaluate('["drop", "tabs", "controls"].every((id) => getComputedStyle($(id)).display === "none") && getComputedStyle($("paperHead")).display === "block" && $("paperHead").textContent.startsWith("Listing of every-line.trace") && document.querySelector("#results pre").offsetHeight > 100'), 'not');
    await c.send('Emulation.setEmulatedMedia', { media: '' });
    const pdf = await c.pdf();
    report('it prints', pdf.length > 3000 && pdf.subarray(0, 4).toString() === '%PDF', pdf.length);
    const commit = spawnSync('git', ['-C', root, 'rev-parse', 'HEAD'], { encoding: 'utf8' }).stdout.trim();
    report('the foot has the commit', !commit || (await c.evaluate('$("commit").textContent')).startsWith(commit), await c.evaluate('$("commit").textContent'));
    report('and the sums', await c.evaluate('$("sums").children.length === Object.keys(PROGRAMS).length'), 'not');
    report('nothing is fetched', c.requests.every((u) => u.startsWith('file://' + root + '/target/page/page.html') || u.startsWith('blob:null/') || u.startsWith('about:')), c.requests.filter((u) => !u.startsWith('blob:')).join(' '));
    let asked = 0;
    const server = http.createServer((_, answer) => { asked++; answer.writeHead(200, { 'Access-Control-Allow-Origin': '*' }); answer.end('x'); });
    await new Promise((yes) => server.listen(0, '127.0.0.1', yes));
    const place = 'http://127.0.0.1:' + server.address().port + '/';
    await c.evaluate('Promise.allSettled([fetch("' + place + '"), new Promise((yes) => { const i = new Image(); i.onload = i.onerror = yes; i.src = "' + place + 'x.png"; })])');
    await c.evaluate('navigator.sendBeacon("' + place + '", "x")').catch(() => false);
    await pause(100).then(() => server.close());
    report('nothing could be', asked === 0, asked);
    report('no script failed', c.errors.length === 0, c.errors.join(' '));
  } catch (e) { failed++; console.log('FAILED page: ' + e.stack); }
  await c.stop();
  console.log(passed + ' passed, ' + failed + ' failed');
  process.exit(failed ? 1 : 0);
})();
