// What the page was given: cards in their order, leads, settings, a plan, a cable; and how files
// get their names on a command line.
'use strict';
const given = { cards: [], leads: [], settings: null, plan: null, planText: '', tolerance: '20', pair: ['72', '0D'], steps: [], telegram: '1 8 5', count: '9', quiet: '3', cable: null, withPlan: false, typed: '' };

let files = 0;
// A file of the page. `made` is the command that made it of another one, if one did.
function fileOf(name, bytes, made) { return { id: ++files, name, bytes, made: made || '' }; }
async function taken(file) { return fileOf(file.name, new Uint8Array(await file.arrayBuffer())); }
const sampleOf = (name) => fileOf(name, bytesOf(SAMPLES[name]));
const has = (...names) => names.every((n) => n in PROGRAMS);

// The files of one call under names that a program can tell apart: no two alike, and none that is
// an option or means standard input.
class Call {
  constructor() { this.files = new Map(); }
  name(f) {
    const own = f.name.startsWith('-') ? './' + f.name : f.name;
    let n = own;
    for (let k = 2; this.files.has(n); k++) n = own + ' (' + k + ')';
    this.files.set(n, f);
    return n;
  }
  settings() { return given.settings ? ['-s', this.name(given.settings)] : []; }
  cards() { return given.cards.map((f) => this.name(f)); }
  ride() { return [...this.settings(), ...this.cards()]; }
}

// A call as it is typed into a shell.
const quote = (w) => (/^[A-Za-z0-9_.\/:=+,@%*-]+$/.test(w) && !w.includes('*') ? w : "'" + w.replace(/'/g, "'\\''") + "'");
const lineOf = (name, args, into) => './run ' + [name, ...args].map(quote).join(' ') + (into ? ' >' + quote(into) : '');

// A text that a program makes bytes of: trace, plan. Answers with the run, and with the file where
// there is one.
async function made(name, file, into) {
  const call = new Call(), args = [call.name(file)], r = await Bench.run(name, args, call.files);
  const good = !r.trap && r.status === 0;
  return { r, file: good ? fileOf(into, r.stdout, lineOf(name, args, into)) : null };
}
const without = (name) => name.replace(/\.[A-Za-z]+$/, '');

// Takes dropped or chosen files by their names: .settings, .plan and .lead are what they say, a
// .txt is made a trace (a plan, while Accept is shown), all else is a card.
async function take(list, as) {
  const said = [];
  for (const one of list) {
    const f = await taken(one), kind = as || (/\.(settings|plan|lead|txt)$/i.exec(f.name) || [''])[0].toLowerCase();
    if (kind === '.settings') given.settings = f;
    else if (kind === '.lead' && has('record')) { given.leads.push(f); tab = 'Lead'; }
    else if (kind === '.plan' && /\.txt$/i.test(f.name) && has('plan')) { given.planText = textOf(f.bytes); said.push(await takePlan(f)); }
    else if (kind === '.plan') { given.plan = f; given.planText = ''; }
    else if (kind === '.cable') given.cable = f;
    else if (/\.txt$/i.test(f.name) && tab === 'Accept' && has('plan')) { given.planText = textOf(f.bytes); said.push(await takePlan(f)); }
    else if (/\.txt$/i.test(f.name) && has('trace')) said.push(await takeText(f));
    else given.cards.push(f);
  }
  return said.filter((r) => r !== null);
}
// A trace typed in as text becomes a card; a plan typed in becomes the plan. What is refused is
// answered.
async function takeText(f) {
  const m = await made('trace', f, without(f.name) + '.trace');
  if (m.file) given.cards.push(m.file);
  return m.file ? null : m.r;
}
async function takePlan(f) {
  const m = await made('plan', f, without(f.name) + '.plan');
  given.plan = m.file;
  return m.file ? null : m.r;
}

// Rides to try.
const RIDES = {
  'one ride': { cards: ['one-ride.trace'] },
  'every line': { cards: ['every-line.trace'], plan: 'track.plan', planText: 'track.txt' },
  workshop: { cards: ['workshop.trace'], settings: 'workshop.settings' },
  positions: { cards: ['positions.trace'] },
  'a lead': { cards: [], leads: ['one-ride.lead'], tab: 'Lead', needs: 'record' },
};
function takeSample(name) {
  const s = RIDES[name];
  given.cards = s.cards.map(sampleOf);
  given.leads = (s.leads || []).map(sampleOf);
  given.settings = s.settings ? sampleOf(s.settings) : null;
  if (s.plan) { given.plan = sampleOf(s.plan); given.planText = textOf(bytesOf(SAMPLES[s.planText])); }
  if (s.tab) tab = s.tab; else if (tab === 'Lead') tab = 'Listing';
}
