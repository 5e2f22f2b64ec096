// Shows what a run wrote: the program's lines, what it said on standard error, the call, and
// buttons to save and to print. Of a long result the beginning is shown.
'use strict';
const SHOWN = 4000, MOST = 2000000;
const make = (tag, props, ...kids) => { const e = Object.assign(document.createElement(tag), props || {}); e.append(...kids); return e; };
const button = (text, onclick, more) => make('button', { type: 'button', onclick, ...more }, text);
const number = (n) => String(n).replace(/\B(?=(\d{3})+$)/g, ',');
const plural = (n, what) => number(n) + ' ' + what + (n === 1 ? '' : 's');

function save(bytes, name) {
  const a = make('a', { href: URL.createObjectURL(new Blob([bytes], { type: 'application/octet-stream' })), download: name });
  document.body.append(a);
  a.click();
  a.remove();
  setTimeout(() => URL.revokeObjectURL(a.href), 10000);
}

// The first lines of some text, how many lines it has, and whether that is all of it.
function beginning(bytes) {
  let lines = 0, end = bytes.length;
  for (let i = 0; i < bytes.length; i++) if (bytes[i] === 10 && ++lines === SHOWN) end = i;
  if (bytes.length && bytes[bytes.length - 1] !== 10) lines++;
  end = Math.min(end, MOST);
  return { text: textOf(bytes.subarray(0, end)).replace(/\n$/, ''), lines, whole: lines <= SHOWN && bytes.length <= MOST };
}
function hexOf(bytes) {
  const rows = [], each = innerWidth < 480 ? 8 : 16;
  for (let at = 0; at < Math.min(bytes.length, 256); at += each) rows.push([...bytes.subarray(at, Math.min(at + each, 256))].map((b) => b.toString(16).padStart(2, '0').toUpperCase()).join(' '));
  return rows.join('\n') + (bytes.length > 256 ? '\n..' : '');
}

const STATUS = ['done', 'refused, or not passed', 'it could not be done'];
function told(r) {
  const parts = [];
  if (r.trap) parts.push(make('div', { className: 'trap', role: 'alert' }, 'The program was stopped (' + r.trap + '). Believe nothing that is shown of this run.'));
  if (r.stderr.length) parts.push(make('div', { className: 'said' }, textOf(r.stderr.subarray(0, MOST)).trimEnd()));
  return parts;
}
function callOf(r, into) {
  return make('p', { className: 'soft call' }, 'The same on the command line: ', make('code', {}, lineOf(r.name, r.args, into)), ' (status ' + r.status + ': ' + STATUS[r.status] + ')');
}

// One run. how.title: a heading. how.save: the name under which it is saved. how.into: the file of
// the call, for programs that write bytes. how.body: elements in place of its lines.
// how.buttons: further buttons. how.short: a long list that is scrolled in its own box.
function block(r, how) {
  const part = make('section', { className: 'block' });
  if (how.title) part.append(make('h3', {}, how.title));
  part.append(...told(r));
  if (how.body) part.append(...how.body);
  else if (r.stdout.length || !r.stderr.length) {
    const b = beginning(how.text || r.stdout);
    part.append(b.text || b.lines ? make('pre', { tabIndex: 0, className: how.short ? 'short' : '' }, b.text) : make('pre', { className: 'empty' }, 'The program wrote no line.'));
    if (!b.whole) part.append(make('p', { className: 'bad' }, 'Only the beginning of ' + plural(b.lines, 'line') + ' is shown. Saved, it is whole.'));
  }
  part.append(callOf(r, how.into));
  const row = make('div', { className: 'row screen' });
  if (r.stdout.length && how.save) row.append(button(how.saveWords || 'Save as text', () => save(r.stdout, how.save)));
  row.append(button('Print', how.print || (() => print())), ...(how.buttons || []));
  part.append(row);
  return part;
}
const hint = (words) => make('p', { className: 'hint' }, words);
function show(...parts) { $('results').replaceChildren(...parts); }

// A page that a program wrote. It has no scripts and may load nothing; its height is that of what
// it has.
function framed(bytes) {
  const frame = make('iframe', { title: 'Picture of the ride' });
  frame.setAttribute('sandbox', 'allow-same-origin allow-modals');
  frame.srcdoc = textOf(bytes);
  const fit = () => {
    frame.style.height = '0';
    try { frame.style.height = frame.contentDocument.documentElement.scrollHeight + 4 + 'px'; } catch (_) { frame.style.height = '80vh'; }
  };
  frame.onload = fit;
  addEventListener('resize', fit);
  return frame;
}
