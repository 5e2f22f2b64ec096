// What can be seen, each by one program or a few. A tab has needs: its programs, which must be in
// the page; asks: whether it is over cards; controls: what stands above its results; run: its
// results.
'use strict';
const field = (id, label, value, size, change) => make('label', {}, label + ' ', make('input', { type: 'text', id, size, value, autocomplete: 'off', spellcheck: false, onchange: (e) => { change(e.target.value.trim()); refresh(); } }));
const row = (...kids) => make('div', { className: 'row' }, ...kids);
const picker = (id, words, as, multiple) => make('label', { className: 'pick' }, words, make('input', { type: 'file', id, multiple: !!multiple, onchange: async (e) => { const list = [...e.target.files]; e.target.value = ''; await add(list, as); } }));

// Whether the picture can show a plan, as its usage says.
const drawsPlans = (LAUNCHER.usage.draw || []).some((call) => call.includes('-p '));
async function overRide(name, saveAs, how) {
  const call = new Call(), r = await Bench.run(name, call.ride(), call.files);
  show(block(r, { save: saveAs, ...how }));
  return r;
}
const pairFields = () => make('span', { className: 'pair' }, field('syncS', 'S', given.pair[0], 3, (v) => { given.pair[0] = v; }), ' ', field('syncT', 'S*', given.pair[1], 3, (v) => { given.pair[1] = v; }));

const TABS = {
  Listing: { needs: ['checker'], asks: true, run: () => overRide('checker', 'listing.txt') },
  Reasons: { needs: ['explain'], asks: true, run: () => overRide('explain', 'reasons.txt') },

  Picture: {
    needs: ['draw'], asks: true,
    controls: () => (given.plan && drawsPlans ? [row(make('label', {}, make('input', { type: 'checkbox', id: 'withPlan', checked: given.withPlan, onchange: (e) => { given.withPlan = e.target.checked; refresh(); } }), ' with the plan ' + given.plan.name + ', tolerance ' + given.tolerance + ' dm'))] : []),
    async run() {
      const call = new Call(), plan = given.plan && given.withPlan && drawsPlans ? ['-p', call.name(given.plan), given.tolerance] : [];
      const r = await Bench.run('draw', [...plan, ...call.ride()], call.files), shown = r.stdout.length && r.stdout.length <= 8000000, frame = shown ? framed(r.stdout) : null;
      const body = frame ? [frame] : r.stdout.length ? [hint('The picture has ' + number(r.stdout.length) + ' bytes, too many to show here. Save it, and open the file.')] : [];
      show(block(r, { body, save: 'ride.html', saveWords: 'Save the picture', into: 'ride.html', print: frame ? () => frame.contentWindow.print() : undefined }));
    },
  },

  Step: {
    needs: ['view'], asks: true,
    controls() {
      const go = (s) => () => step(s), asked = (id, letter) => () => { const v = $(id).value.trim(); if (letter ? /^\d+$/.test(v) : v) step(letter ? letter + ' ' + v : v); else $(id).focus(); };
      const number = (id, label, letter) => make('span', { className: 'row tight' }, make('label', {}, label + ' ', make('input', { type: 'text', id, size: 6, inputMode: letter ? 'numeric' : 'text', autocomplete: 'off', spellcheck: false, onkeydown: (e) => { if (e.key === 'Enter') asked(id, letter)(); } })), button('Go', asked(id, letter)));
      return [row(make('span', { className: 'row tight' }, button('◀ 10', go('b 10'), { title: 'Page up' }), button('◀ Back', go('b'), { title: 'Left arrow' }), button('Forward ▶', go('f'), { title: 'Right arrow' }), button('10 ▶', go('f 10'), { title: 'Page down' })),
        number('toRecord', 'before record', 'g'), number('toPlace', 'to place (dm)', 'p'), number('command', 'command', ''), button('Start again', () => { given.steps = []; refresh(); })),
      make('p', { className: 'soft' }, 'Keys: left and right arrow, page up and page down. A command that is none, as ?, shows them all.')];
    },
    async run() {
      const call = new Call(), args = call.ride(), typed = (n) => utf8(given.steps.slice(0, n).map((s) => s + '\n').join('')), n = given.steps.length;
      // The program keeps nothing between two runs, so it is given all commands so far; what the
      // last one adds is what it answered.
      const r = await Bench.run('view', args, call.files, typed(n)), before = n ? await Bench.run('view', args, call.files, typed(n - 1)) : null;
      const begun = before && before.stdout.length <= r.stdout.length && before.stdout.every((b, i) => b === r.stdout[i]);
      const part = block(r, { text: begun ? r.stdout.subarray(before.stdout.length) : r.stdout, save: 'steps.txt', saveWords: 'Save all steps' });
      if (n) part.querySelector('.call').append(make('br'), 'with ' + plural(n, 'command') + ' on standard input: ', make('code', {}, (n > 20 ? '.. ' : '') + given.steps.slice(-20).join(', ')));
      show(part);
    },
  },

  Accept: {
    needs: ['accept'], asks: true,
    controls() {
      const use = async () => { given.planText = $('planText').value; const said = await takePlan(fileOf('plan.txt', utf8(given.planText))); await changed(said ? [said] : []); };
      const parts = [row(picker('pickPlan', 'Choose a plan ..', '.plan'), make('span', {}, given.plan ? make('b', {}, given.plan.name) : 'no plan yet', given.plan ? ', ' + plural(given.plan.bytes.length / 8, 'entry').replace('entrys', 'entries') : ''), field('tolerance', 'Tolerance (dm)', given.tolerance, 4, (v) => { given.tolerance = v; }))];
      if (has('plan')) parts.push(make('details', { open: !given.plan }, make('summary', {}, 'Type the plan in'), make('label', { htmlFor: 'planText', className: 'soft' }, 'One entry a line: place, and signal, warning, annulled, line or route.'),
        make('textarea', { id: 'planText', rows: 6, spellcheck: false, value: given.planText }), row(button('Use these lines', use, { id: 'usePlan' }))));
      return parts;
    },
    async run() {
      if (!given.plan) return show(hint('No plan yet: choose one above, drop one, or type it in.'));
      const call = new Call(), settings = call.settings(), plan = call.name(given.plan), args = [...settings, plan, given.tolerance, ...call.cards()];
      show(block(await Bench.run('accept', args, call.files), { save: 'acceptance.txt' }));
    },
  },

  Smaller: {
    needs: ['compact'], asks: true,
    async run() {
      const call = new Call(), args = call.ride(), r = await Bench.run('compact', args, call.files), was = given.cards.reduce((n, f) => n + f.bytes.length, 0), body = [];
      if (!r.trap && r.status === 0) {
        body.push(make('pre', {}, number(was / 8) + ' records, ' + number(was) + ' bytes before\n' + number(r.stdout.length / 8) + ' records, ' + number(r.stdout.length) + ' bytes now'));
        if (has('checker')) {
          const same = await sameListing(call, args, r.stdout);
          body.push(make('p', { className: same ? '' : 'bad' }, same ? 'Both were listed again here: every line is the same, but for the numbers of refused records.' : 'The two listings differ. Keep the cards, and report this.'));
        }
      }
      show(block(r, { body, save: 'small.trace', saveWords: 'Save the smaller trace', into: 'small.trace' }));
    },
  },

  Records: {
    needs: ['records'], asks: false,
    controls() {
      if (!has('trace')) return [];
      const use = async () => { given.typed = $('typed').value; const said = await takeText(fileOf('typed.txt', utf8(given.typed))); await changed(said ? [said] : []); };
      const copy = () => { const pre = $('results').querySelector('pre:not(.empty)'); if (pre) { given.typed = $('typed').value = pre.textContent; $('typed').focus(); } };
      return [make('details', { open: !given.cards.length, id: 'typing' }, make('summary', {}, 'Type records in, or change these'),
        make('label', { htmlFor: 'typed', className: 'soft' }, 'One record a line: 1000 1 8 5, 1000 12 1612, 1000 marker, 1000 unreadable, 1000 position.'),
        make('textarea', { id: 'typed', rows: 7, spellcheck: false, value: given.typed }), row(button('Make it a card', use, { id: 'useTyped' }), button('Take the lines below', copy, { disabled: !given.cards.length })))];
    },
    async run() {
      if (!given.cards.length) return show(hint('No card yet.'));
      const call = new Call(), r = await Bench.run('records', call.cards(), call.files);
      show(block(r, { save: 'records.txt' }));
    },
  },
};

// Whether the checker says the same of the smaller trace. A refused record that is kept stands
// earlier there, so the numbers of such lines are left out.
async function sameListing(call, args, bytes) {
  const small = fileOf('small.trace', bytes), other = new Call(), settings = other.settings();
  const one = await Bench.run('checker', args, call.files), two = await Bench.run('checker', [...settings, other.name(small)], other.files);
  const plain = (b) => textOf(b).replace(/^record \d+ refused/gm, 'record refused');
  return !one.trap && !two.trap && plain(one.stdout) === plain(two.stdout);
}
function step(command) { given.steps.push(command); return refresh(true); }
