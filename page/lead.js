// The two tabs that begin before a card: a lead that is recorded, and a test balise that is written
// and heard again.
'use strict';
TABS.Lead = {
  needs: ['record'], asks: false,
  controls() {
    const leads = given.leads.map((f, i) => make('li', {}, make('b', {}, f.name), make('span', { className: 'size' }, number(f.bytes.length) + ' bytes, ' + plural(Math.floor(f.bytes.length / 16), 'frame')), button('remove', () => { given.leads.splice(i, 1); changed(); }, { className: 'small', ariaLabel: 'remove ' + f.name })));
    return [row(picker('pickLead', 'Add a lead ..', '.lead', true), given.settings ? make('span', { className: 'soft' }, 'with the sync words of ' + given.settings.name) : make('span', { className: 'row' }, 'Sync words', pairFields())), make('ol', { className: 'cards' }, ...leads)];
  },
  async run() {
    if (!given.leads.length) return show(hint('No lead yet: drop one, choose one above, or try a sample. It is recorded, and the trace becomes the card of this page.'));
    const call = new Call(), how = given.settings ? call.settings() : given.pair, r = await Bench.run('record', [...how, ...given.leads.map((f) => call.name(f))], call.files), buttons = [], body = [];
    if (!r.trap && r.status === 0) {
      const card = fileOf('ride.trace', r.stdout, lineOf(r.name, r.args, 'ride.trace')), alone = given.cards.every((f) => f.recorded);
      card.recorded = true;
      body.push(make('p', {}, alone ? 'The trace is the card of this page now: the other tabs show it.' : 'There are other cards: add the trace to them, or remove them first.'));
      if (alone) { given.cards = [card]; cardList(); } else buttons.push(button('Add it to the cards', () => { given.cards.push(card); changed(); }));
    }
    show(block(r, { body, save: 'ride.trace', saveWords: 'Save the trace', into: 'ride.trace', buttons }));
  },
};

TABS.Balise = {
  needs: ['balise', 'listen'], asks: false,
  controls() {
    return [row(field('telegram', 'Telegram', given.telegram, 9, (v) => { given.telegram = v; }), pairFields(), field('count', 'telegrams', given.count, 4, (v) => { given.count = v; }), field('quiet', 'quiet bytes around', given.quiet, 4, (v) => { given.quiet = v; })),
      make('p', { className: 'soft' }, 'Three figures, as 1 8 5, or 12 and a number, as 12 1612.'),
      row(picker('pickCable', 'Listen to a file ..', '.cable'), given.cable ? make('span', {}, make('b', {}, given.cable.name), ' ', button('remove', () => { given.cable = null; changed(); }, { className: 'small' })) : make('span', { className: 'soft' }, 'a line as bytes, in place of the balise'))];
  },
  async run() {
    const parts = [], words = given.telegram.split(/[ ,]+/).filter((w) => w), call = new Call();
    let cable = given.cable;
    if (!cable) {
      const r = await Bench.run('balise', [...words, ...given.pair, given.count, ...(given.quiet ? [given.quiet] : [])]);
      parts.push(block(r, { title: 'Written', body: r.stdout.length ? [make('pre', { tabIndex: 0 }, hexOf(r.stdout)), make('p', { className: 'soft' }, plural(r.stdout.length, 'byte') + (r.stdout.length > 256 ? ', of which 256 are shown' : '') + '.')] : [], save: 'cable', saveWords: 'Save the bytes', into: 'cable' }));
      if (!r.trap && r.status === 0) cable = fileOf('cable', r.stdout);
    }
    if (cable) parts.push(block(await Bench.run('listen', [call.name(cable), ...given.pair], call.files), { title: 'Heard', save: 'heard.txt' }));
    if (has('audible')) parts.push(block(await Bench.run('audible', given.pair), { title: 'What can never be heard with this pair', save: 'audible.txt', short: true }));
    show(...parts);
  },
};
