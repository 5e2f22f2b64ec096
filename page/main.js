// The page itself: the list of cards, the tabs, keys, drops, and what is shown while a run goes on.
'use strict';
const LATE = 500;
let tab = 'Listing', turn = 0;
const tabs = Object.keys(TABS).filter((name) => has(...TABS[name].needs));

// The list of cards. The button that was pressed keeps the focus.
function cardList() {
  const held = document.activeElement && document.activeElement.dataset ? document.activeElement.dataset.key : '';
  const move = (i, by) => () => { given.cards.splice(i + by, 0, given.cards.splice(i, 1)[0]); changed(); };
  const small = (f, text, words, onclick, disabled) => { const b = button(text, onclick, { className: 'small', disabled, ariaLabel: words + ' ' + f.name, title: words }); b.dataset.key = text + f.id; return b; };
  $('cards').replaceChildren(...given.cards.map((f, i) => make('li', {}, make('b', {}, f.name),
    make('span', { className: 'size' }, number(f.bytes.length) + ' bytes' + (f.bytes.length % 8 ? '' : ', ' + plural(f.bytes.length / 8, 'record'))),
    make('span', { className: 'row tight', style: 'display: inline-flex' }, small(f, '↑', 'earlier:', move(i, -1), i === 0), small(f, '↓', 'later:', move(i, 1), i === given.cards.length - 1), small(f, 'remove', 'remove', () => { given.cards.splice(i, 1); changed(); })),
    f.made ? make('div', { className: 'soft' }, make('code', {}, f.made)) : '')));
  $('settings').replaceChildren(...(given.settings ? [make('b', {}, given.settings.name), ' ', button('remove', () => { given.settings = null; changed(); }, { className: 'small', ariaLabel: 'remove the settings' })] : ['none: the gap is 40 dm']));
  const again = held && [...$('cards').querySelectorAll('button')].find((b) => b.dataset.key === held);
  if (again) (again.disabled ? again.parentElement.querySelector('button:not(:disabled)') : again).focus();
}

function controls() {
  const own = TABS[tab].controls;
  $('controls').replaceChildren(...(own ? own() : []));
  for (const b of $('tabs').children) { const on = b.textContent === tab; b.setAttribute('aria-selected', on); b.tabIndex = on ? 0 : -1; if (on) $('panel').setAttribute('aria-labelledby', b.id); }
}

// What is under way, once it takes longer than half a second.
function busy(began, mine) {
  let read = '';
  const tell = () => {
    if (mine !== turn) return;
    const seconds = Math.floor((performance.now() - began) / 1000);
    $('busy').replaceChildren('Working' + (read ? ' (' + read + ')' : '') + ' .. ' + seconds + ' s ', button('Stop', () => { turn++; Bench.stop(); $('busy').replaceChildren('Stopped.'); $('panel').setAttribute('aria-busy', 'false'); show(); document.body.dataset.done = String(turn); }, { className: 'small', id: 'stop' }));
  };
  Bench.going = (name, bytes) => { read = name + ', ' + (bytes / 1e6).toFixed(1) + ' MB read'; };
  let each = 0;
  const late = setTimeout(() => { tell(); each = setInterval(tell, 250); }, LATE);
  return () => { clearTimeout(late); clearInterval(each); if (mine === turn) Bench.going = null; };
}

// Runs what the tab shows. A newer call ends an older one.
async function refresh(keep) {
  const mine = ++turn;
  Bench.stop();
  $('busy').replaceChildren();
  if (!keep) controls();
  const named = given.cards.map((f) => f.name).join(', ');
  $('paperHead').textContent = tab + (TABS[tab].asks || tab === 'Records' ? ' of ' + (named || 'no card') : '') + (given.settings ? ', settings ' + given.settings.name : '') + (tab === 'Accept' && given.plan ? ', plan ' + given.plan.name + ', tolerance ' + given.tolerance + ' dm' : '') + '; printed ' + new Date().toLocaleString();
  if (TABS[tab].asks && !given.cards.length) { show(hint('No card yet: drop one, choose one above, or try a sample.')); document.body.dataset.done = String(mine); return; }
  const done = busy(performance.now(), mine);
  $('panel').setAttribute('aria-busy', 'true');
  try { await TABS[tab].run(); } catch (e) {
    if (e instanceof Stopped || mine !== turn) return;
    show(make('div', { className: 'trap', role: 'alert' }, 'This page failed: ' + e.message));
  } finally { done(); }
  if (mine !== turn) return;
  $('busy').replaceChildren();
  $('panel').setAttribute('aria-busy', 'false');
  document.body.dataset.done = String(mine);
}

// After what was given has changed. What was refused on the way stands under the cards until the
// next change.
function changed(said) {
  given.steps = [];
  $('refused').replaceChildren(...(said || []).flatMap((r) => [...told(r), ...(r.stdout.length ? [make('div', { className: 'said' }, textOf(r.stdout).trimEnd())] : [])]));
  cardList();
  return refresh();
}
async function add(list, as) {
  try { return await changed(await take(list, as)); } catch (e) { if (!(e instanceof Stopped)) throw e; }
}

function choose(name, focus) { tab = name; const done = refresh(); if (focus) [...$('tabs').children].find((b) => b.textContent === name).focus(); return done; }
for (const name of tabs) $('tabs').append(make('button', { type: 'button', role: 'tab', id: 'tab' + name, onclick: () => choose(name) }, name));
for (const b of $('tabs').children) b.setAttribute('aria-controls', 'panel');
$('tabs').onkeydown = (e) => {
  const at = tabs.indexOf(tab), to = { ArrowRight: at + 1, ArrowLeft: at - 1, Home: 0, End: tabs.length - 1 }[e.key];
  if (to !== undefined) { e.preventDefault(); e.stopPropagation(); choose(tabs[(to + tabs.length) % tabs.length], true); }
};
addEventListener('keydown', (e) => {
  const command = { ArrowRight: 'f', ArrowLeft: 'b', PageDown: 'f 10', PageUp: 'b 10' }[e.key];
  if (tab !== 'Step' || !command || !given.cards.length || e.ctrlKey || e.altKey || e.metaKey || /INPUT|TEXTAREA/.test(e.target.tagName)) return;
  e.preventDefault();
  step(command);
});

for (const [id, as] of [['pickCards', ''], ['pickSettings', '.settings']]) $(id).onchange = async (e) => { const list = [...e.target.files]; e.target.value = ''; await add(list, as); };
$('useSettings').onclick = () => { given.settings = fileOf('typed.settings', utf8($('settingsText').value)); return changed(); };
addEventListener('dragover', (e) => { e.preventDefault(); document.body.classList.add('over'); });
addEventListener('dragleave', () => document.body.classList.remove('over'));
addEventListener('drop', (e) => { e.preventDefault(); document.body.classList.remove('over'); add([...e.dataTransfer.files]); });
for (const name of Object.keys(RIDES)) if (!RIDES[name].needs || has(RIDES[name].needs)) $('samples').append(button(name, () => { takeSample(name); return changed(); }, { className: 'small' }));

$('how').textContent = 'or drop them anywhere' + (has('trace') ? '; a text (.txt) is made a trace first' : '') + (has('record') ? '; a .lead is recorded' : '');
$('commit').textContent = ABOUT.commit;
$('kit').textContent = ABOUT.kit;
for (const [name, [own, native]] of Object.entries(ABOUT.sums)) $('sums').append(make('tr', {}, make('td', {}, name), make('td', {}, make('code', {}, own), make('br'), make('code', {}, native))));
if (!has(...TABS[tab].needs)) tab = tabs[0];
changed();
