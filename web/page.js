'use strict';
// The page: the text at the left, and what the module says of it at the right.
//
//   text ── (plan: mcs_compile) ──> script ── mcs_replay, _check, _why, _draw, _state ──> views
//   script of users ── mcs_search, with budgets that rise ──> report, and the script of each order
//   plan ── mcs_check_plan, _why_plan, _draw_plan, _search_plan ──> the same in its own words
//
// Two workers have the module each: one for what is typed, and one for searches, which a stop ends.
const find = id => document.getElementById(id);
const data = JSON.parse(find('data').textContent);

// The exports of the module; a view whose export is missing is not there
let exported = new Set();

// A worker with the module. Calls are answered in their order; a call that is stopped, or that
// ends the module, is refused, and the next one starts a new worker.
class Caller {
  constructor(module) {
    this.module = module;
    this.waiting = new Map();
    this.last = 0;
  }

  start() {
    const url = URL.createObjectURL(new Blob([find('engine').textContent], { type: 'text/javascript' }));
    this.worker = new Worker(url);
    URL.revokeObjectURL(url);
    this.worker.postMessage({ module: this.module });
    this.worker.onmessage = ({ data: { id, told, fault } }) => {
      const { good, bad } = this.waiting.get(id);
      this.waiting.delete(id);
      if (told) {
        good(told);
        return;
      }
      // what ended within a call may have left anything in its memory
      bad(new Error(fault));
      this.stop(fault);
    };
    this.worker.onerror = event => this.stop(event.message || 'the worker ended');
  }

  async call(name, text, states) {
    if (!exported.has(name)) return { status: 0, text: '', line: 0, fault: 0 };
    if (!this.worker) this.start();
    const id = ++this.last;
    return new Promise((good, bad) => {
      this.waiting.set(id, { good, bad });
      this.worker.postMessage({ id, name, text, states });
    });
  }

  stop(why) {
    if (this.worker) this.worker.terminate();
    this.worker = null;
    for (const { bad } of this.waiting.values()) bad(new Error(why));
    this.waiting.clear();
  }
}

const superseded = 'the text changed';
let typing, searching;
// the texts that are shown, and what came of them
let shown = { script: '', plan: '', name: '' };
let made = { script: '', plan: '', isUsers: false };
let round = 0;
let report = { text: '' };

const escaped = text => text.replace(/[&<>"]/g, c => ({ '&': '&amp;', '<': '&lt;', '>': '&gt;', '"': '&quot;' })[c]);
const element = (name, text, kind) => {
  const made = document.createElement(name);
  if (text !== undefined) made.textContent = text;
  if (kind) made.className = kind;
  return made;
};

// ---- the editor

// A script has `cores` and numbers; a plan has names behind these words
const isScript = text => /^cores\b/m.test(text)
  && !/^\s*(endpoint|notification|reply|context|cnode|thread|pd|channel)[ \t]+[A-Za-z]/m.test(text);
const isUsers = script => /^(user\s|#! [\w.-]+:|#! program\b)/m.test(script);

const span = (kind, text) => text && `<span class="${kind}">${escaped(text)}</span>`;
const words = text => escaped(text);

// Colours a line by its form: no list of words, so that none is missing
const coloured = line => {
  let [, code, comment] = /^((?:[^\s#]|\s+(?!#)|(?<=\S)#)*\s*)(#.*)?$/.exec(line) || [0, line, ''];
  const tail = comment ? span(/^#[?!@:]/.test(comment) ? 'q' : 'c', comment) : '';
  let m;
  if (/^\s*\?/.test(code)) return span('q', code) + tail;
  if (/^= /.test(code)) return span('r', code) + tail;
  if (/^\+ /.test(code)) return span('p', code) + tail;
  if ((m = /^(\d+ )(t\d+ )(\S+)(.*)$/s.exec(code))) return words(m[1]) + span('t', m[2]) + span('k', m[3]) + words(m[4]) + tail;
  if ((m = /^(\s*)(user\s+)?([A-Za-z][\w.-]*(?:\s+on core \d+)?:\s*)([a-z]+)?(.*)$/s.exec(code)))
    return m[1] + span('k', m[2] || '') + span('t', m[3]) + span('k', m[4] || '') + words(m[5]) + tail;
  if ((m = /^(\s*)([\w.-]+)(\s+has\b)(.*)$/s.exec(code))) return m[1] + span('t', m[2]) + span('k', m[3]) + words(m[4]) + tail;
  if ((m = /^(\s*)([a-z]+)\b(.*)$/s.exec(code))) return m[1] + span('k', m[2]) + words(m[3]) + tail;
  return words(code) + tail;
};

let faultLine = 0, hereLine = 0;

// Shows the text in colours, and the numbers of its lines
const paint = () => {
  const lines = find('text').value.split('\n');
  const kind = at => (at === faultLine ? 'bad' : at === hereLine ? 'here' : '');
  find('colours').innerHTML = lines.map((line, i) => `<div class="${kind(i + 1)}">${coloured(line)}</div>`).join('');
  find('gutter').innerHTML = lines.map((_, i) => `<div class="${kind(i + 1)}">${i + 1}</div>`).join('');
};

const mark = (line, text) => {
  faultLine = line;
  find('fault').textContent = text;
  find('fault').classList.toggle('bad', Boolean(text));
  find('text').setAttribute('aria-invalid', String(Boolean(text)));
  paint();
};

const goTo = line => {
  const text = find('text');
  const lines = text.value.split('\n');
  const from = lines.slice(0, line - 1).join('\n').length + (line > 1 ? 1 : 0);
  text.focus({ preventScroll: true });
  text.setSelectionRange(from, from + (lines[line - 1] || '').length);
  const row = find('colours').children[line - 1];
  if (row) row.scrollIntoView({ block: 'center', inline: 'nearest' });
};

// The line of the text that a report or a picture names; 0 where an order is shown
const lineOf = line => (shown.name ? 0 : line);

// Calls an export with a script; with the plan of which it came, where it came of one, so that it
// has the plan's words and lines
const callOf = (caller, name, { plan, script }, states) => (
  plan ? caller.call(`${name}_plan`, plan, states) : caller.call(name, script, states));

// ---- what is told of a script

// The line that a text names, as `line 3: ..`, and what it says of it
const said = told => {
  const text = told.text.trimEnd();
  const last = text.slice(text.lastIndexOf('\n') + 1).replace(/^Bail out! /, '');
  return told.status === 6 ? 'memory is refused' : last.replace(/^line \d+: /, '') || 'this line is refused';
};

const refusedBy = told => told.status === 2 || told.status >= 5;

const tellFault = (told, line) => mark(line, `${line ? `Line ${line}: ` : ''}${said(told)}`);

// The line of the script for each line of the book that is drawn, by a picture of the script
const linesDrawn = told => {
  const svg = new DOMParser().parseFromString(told.text, 'image/svg+xml');
  return new Map([...svg.querySelectorAll('g.row')]
    .map(row => [row.dataset.line, Number([...row.querySelectorAll('.number')][1]?.textContent || 0)]));
};

// Shows a script of steps: of the text, or an order that a search found
const show = async next => {
  shown = next;
  const mine = round;
  find('shown').hidden = !next.name;
  find('shown-name').textContent = next.name ? `Shown: ${next.name}` : '';
  find('script-text').innerHTML = next.script.split('\n').map(coloured).join('\n');
  const [trace, check, why, draw, plain] = await Promise.all([
    typing.call('mcs_replay', next.script),
    ...['mcs_check', 'mcs_why', 'mcs_draw'].map(name => callOf(typing, name, next)),
    next.plan ? typing.call('mcs_draw', next.script) : null,
  ]);
  if (mine !== round || shown !== next) return;
  if (refusedBy(check)) tellFault(check, lineOf(check.line));
  else if (refusedBy(trace)) tellFault(trace, next.plan ? 0 : lineOf(trace.line));
  next.drawn = linesDrawn(plain || draw);
  find('trace-text').innerHTML = trace.text.split('\n').map(coloured).join('\n');
  showVerdicts(check, why);
  await showPicture(draw);
};

const lineButton = line => {
  const button = element('button', `line ${line}`, 'line');
  button.type = 'button';
  button.addEventListener('click', () => goTo(line));
  return button;
};

// A line of a report, with the line of the text that it names as a button
const reportLine = (text, kind) => {
  const item = element('li', undefined, kind);
  const [, before, number, behind] = /^((?:.* - )?)line (\d+)(: .*)$/s.exec(text) || /^( {2})line: (\d+)()$/.exec(text) || [];
  const line = number && lineOf(Number(number));
  if (!line) {
    item.textContent = text;
    return item;
  }
  item.append(before, lineButton(line), behind);
  return item;
};

const showVerdicts = (check, why) => {
  const lines = check.text.split('\n').filter(line => /^(not )?ok |^Bail out!|^ {2}[a-z]/.test(line));
  const good = lines.filter(line => /^ok /.test(line)).length;
  const bad = lines.filter(line => /^not ok /.test(line)).length;
  find('verdict').textContent = check.status === 0 && !good ? 'The text says nothing of its steps.'
    : check.status === 0 ? `${good} of ${good} hold.`
    : check.status === 1 ? `${bad} of ${good + bad} do not hold.` : said(check);
  find('verdict').className = check.status ? 'fails' : 'holds';
  const kind = line => (/^(not ok|Bail out)/.test(line) ? 'bad' : '');
  find('points').replaceChildren(...lines.map(line => reportLine(line, kind(line))));
  const told = refusedBy(why) ? [] : why.text.split('\n').filter(Boolean);
  find('why').replaceChildren(...(told.length ? told.map(line => reportLine(line)) : [element('li', 'Nothing.')]));
};

// ---- the picture, through which one steps as through that of `mcslab draw --format html`

let picture = null;
const drawing = find('drawing').attachShadow({ mode: 'open' });

const showPicture = async told => {
  picture = null;
  drawing.innerHTML = '<style>:host{display:block}svg{display:block}.row{cursor:pointer}'
    + '.here text{text-decoration:underline;font-weight:bold;stroke:none}.past{opacity:.25}'
    + '.band{fill:#0072b2;fill-opacity:.1}</style>' + (refusedBy(told) ? '' : told.text);
  const svg = drawing.querySelector('svg');
  find('save-picture').disabled = !svg;
  const slider = find('slider');
  slider.disabled = find('back').disabled = find('next').disabled = !svg;
  if (!svg) {
    find('step').textContent = refusedBy(told) ? '' : 'There is nothing to draw.';
    find('number').textContent = '';
    find('state-at').textContent = 'There is no run, and so no state.';
    find('tables').replaceChildren();
    lastState = '';
    return;
  }
  const rows = [...svg.querySelectorAll('g.row')];
  const parts = [...svg.querySelectorAll('path.arrow[data-line], circle[data-line]')];
  const title = svg.querySelector(':scope > title');
  const text = told.text;
  picture = { svg, rows, parts, text, bars: [...svg.querySelectorAll('g.bar')], band: null };
  if (title) {
    svg.setAttribute('aria-label', title.textContent);
    title.remove();
  }
  picture.band = document.createElementNS(svg.namespaceURI, 'rect');
  picture.band.setAttribute('class', 'band');
  picture.band.setAttribute('width', '100%');
  svg.querySelector('rect.ground').after(picture.band);
  slider.max = rows.length ? rows.at(-1).dataset.line : 0;
  slider.value = slider.max;
  await step();
};

const rowAt = line => picture.rows.findLastIndex(row => Number(row.dataset.line) <= line);

// Places the band behind the row of a line
const placeBand = at => {
  if (find('picture').hidden || at < 0) return;
  const top = picture.rows[at].getBBox().y - 4;
  const next = picture.rows[at + 1];
  const last = picture.svg.querySelector('text.strong');
  const end = next ? next.getBBox().y - 4 : last ? last.getBBox().y - 8 : top + 40;
  picture.band.setAttribute('y', top);
  picture.band.setAttribute('height', Math.max(0, end - top));
  const box = find('drawing');
  if (top < box.scrollTop || end > box.scrollTop + box.clientHeight) box.scrollTop = Math.max(0, top - box.clientHeight / 3);
};

// Shows the picture and the state after the line of the slider
const step = async () => {
  if (!picture) return;
  const slider = find('slider');
  const line = Number(slider.value);
  find('number').textContent = line;
  slider.setAttribute('aria-valuetext', `line ${line}`);
  find('back').disabled = slider.value === slider.min;
  find('next').disabled = slider.value === slider.max;
  for (const row of picture.rows) row.classList.remove('here');
  const at = rowAt(line);
  const row = picture.rows[at];
  let file = 0;
  if (row) {
    row.classList.add('here');
    const numbers = [...row.querySelectorAll('.number')].map(text => text.textContent);
    file = Number(numbers[1] || 0);
    const texts = [...row.querySelectorAll('text:not(.number)')].map(text => text.textContent);
    const own = lineOf(file);
    find('step').textContent = (own ? `Line ${own}: ` : '') + texts.join(' ');
  }
  for (const bar of picture.bars) bar.classList.toggle('past', Number(bar.dataset.first) > line);
  for (const part of picture.parts) part.classList.toggle('past', Number(part.dataset.line) > line);
  placeBand(at);
  hereLine = line === Number(slider.max) ? 0 : lineOf(file);
  paint();
  await showState(row && shown.drawn?.get(row.dataset.line) || 0);
};

const go = line => {
  find('slider').value = line;
  return step();
};

// ---- the state

const cell = value => (value === null ? '' : Array.isArray(value) ? value.map(cell).join(', ')
  : typeof value === 'object' ? Object.entries(value).map(([key, one]) => `${key} ${cell(one)}`).join(' ') : String(value));

const tableOf = (name, rows) => {
  const table = element('table');
  table.append(element('caption', name));
  const keys = [...new Set(rows.flatMap(row => Object.keys(row)))];
  const first = ['id', 'name', 'queue'].filter(key => keys.includes(key));
  const order = [...first, ...keys.filter(key => !first.includes(key))];
  const head = element('tr');
  for (const key of order) {
    const th = element('th', key);
    th.scope = 'col';
    head.append(th);
  }
  table.append(head);
  for (const row of rows) {
    const line = element('tr');
    for (const key of order) line.append(element('td', row[key] === undefined ? '' : cell(row[key])));
    table.append(line);
  }
  return table;
};

// The script up to one of its lines, and what follows its step; up to the first step for line 0
const scriptTo = line => {
  const lines = shown.script.split('\n');
  const first = lines.findIndex(one => /^\d/.test(one));
  const end = line || (first < 0 ? lines.length : first);
  return lines.slice(0, end).join('\n') + '\n';
};

let lastState = '';

const showState = async line => {
  if (find('state').hidden) return;
  const text = scriptTo(line);
  if (text === lastState) return;
  lastState = text;
  const told = await typing.call('mcs_state', text);
  if (lastState !== text) return;
  find('state-at').textContent = line ? `After line ${find('number').textContent} (the slider is under Picture).` : 'After the boot.';
  if (refusedBy(told) || !told.text.trim()) {
    find('tables').replaceChildren(element('p', refusedBy(told) ? said(told) : 'There is no state.'));
    return;
  }
  const state = JSON.parse(told.text);
  const tables = ['threads', 'stuck', 'queues', 'replies', 'contexts', 'notifications', 'cnodes']
    .filter(name => Array.isArray(state[name]) && state[name].length).map(name => tableOf(name, state[name]));
  find('tables').replaceChildren(...tables);
};

// ---- all orders

const budgets = [1000, 20000, 200000, 1000000];

// The scripts behind a report, each after a line `== NAME`
const parted = text => {
  const [told, ...parts] = ('\n' + text).split(/\n== /);
  const scripts = parts.map(part => {
    const end = part.indexOf('\n');
    return { name: part.slice(0, end), script: part.slice(end + 1) + '\n' };
  });
  return { told: told.slice(1) + (scripts.length ? '\n' : ''), scripts };
};

// What a script shows, by the comment that it begins with
const titleOf = script => {
  const lines = script.split('\n').slice(1);
  const end = lines.findIndex(line => !line.startsWith('# '));
  return lines.slice(0, end).map(line => line.slice(2)).join('\n');
};

const showFound = told => {
  const { told: text, scripts } = parted(told.text);
  report = { text };
  find('report').textContent = text;
  find('save-report').disabled = !text;
  const items = scripts.map(one => {
    const item = element('li');
    const title = titleOf(one.script) || one.name;
    const button = element('button', title);
    button.type = 'button';
    button.dataset.name = one.name;
    button.addEventListener('click', async () => {
      const [first] = title.split('\n');
      await show({ script: one.script, plan: '', name: first });
      choose('picture');
      find('tab-picture').focus();
    });
    item.append(button);
    return item;
  });
  const listed = scripts.length ? /^question at line \d+: .*: holds/ : /^(end|stuck) \d+: |^question at line \d+: /;
  const asked = text.split('\n').filter(line => listed.test(line));
  const held = asked.map(line => {
    const item = element('li');
    item.append(element('span', line, /: holds/.test(line) ? 'holds' : ''));
    return item;
  });
  find('found').replaceChildren(...items, ...held);
};

const tellProgress = text => { find('progress').textContent = text; };

let isSearching = false;

const setSearching = on => {
  isSearching = on;
  find('meter').hidden = !on;
  find('stop').disabled = !on;
  find('search').disabled = on || !made.isUsers;
};

const seconds = from => ((performance.now() - from) / 1000).toFixed(1);

// Searches with budgets that rise, so that a stop leaves what the last one found
const search = async () => {
  const mine = made;
  const most = Number(find('most').value);
  const from = performance.now();
  setSearching(true);
  showFound({ text: '' });
  let before = 0, told = null;
  const count = () => tellProgress(`${before ? `${before} states were searched, no end yet. ` : ''}${seconds(from)} s ..`);
  const clock = setInterval(count, 500);
  try {
    for (const states of budgets.filter(one => one < most).concat(most)) {
      count();
      told = await callOf(searching, 'mcs_search', mine, states);
      if (mine !== made) return null;
      if (refusedBy(told)) {
        tellProgress(told.status === 6 ? 'Memory is refused: what was found before stands below.' : 'No search: a line is refused.');
        if (told.status !== 6) tellFault(told, told.line);
        return told;
      }
      showFound(told);
      before = states;
      const [head] = told.text.split('\n');
      if (!head.startsWith('stopped ') && /, whole/.test(head)) break;
    }
    const end = { 0: 'All that is asked holds in all orders.', 1: 'Something fails.', 3: 'The budget ended the search; nothing failed so far.' };
    tellProgress(`${end[told.status]} ${seconds(from)} s.`);
    return told;
  } catch (fault) {
    const found = before ? ` What ${before} states showed stands below.` : ' Nothing was found so far.';
    if (mine === made) tellProgress(`Ended after ${seconds(from)} s: ${fault.message}.${found}`);
    return null;
  } finally {
    clearInterval(clock);
    setSearching(false);
  }
};

// ---- lessons: a line `#: verdicts N` or `#: holds` says how the answer is checked

const goalOf = text => /^#: (verdicts (\d+)|holds)$/m.exec(text);

const isAnswered = async goal => {
  await refresh();
  if (faultLine || find('fault').classList.contains('bad')) return 'Not yet: a line is refused.';
  if (goal[2]) {
    if (made.isUsers) return 'Not yet: the text has no steps.';
    const told = await callOf(typing, 'mcs_check', made);
    const good = told.text.split('\n').filter(line => /^ok /.test(line)).length;
    if (told.status !== 0) return 'Not yet: the verdicts show which line is not so.';
    return good >= Number(goal[2]) ? 'Right.' : `Not yet: ${goal[2]} lines have to say what happens.`;
  }
  if (!made.isUsers) return 'Not yet: the text has no users.';
  choose('orders');
  const told = await search();
  return told && told.status === 0 ? 'Right: it holds in all orders.' : 'Not yet: the list shows an order in which it fails.';
};

const answer = async () => {
  const goal = goalOf(find('text').value);
  if (!goal) return;
  find('answered').textContent = '..';
  const told = await isAnswered(goal);
  find('answered').textContent = told;
  find('answered').className = told.startsWith('Right') ? 'holds' : 'fails';
};

// ---- a text that changed

const clear = () => {
  find('points').replaceChildren();
  find('why').replaceChildren();
  find('trace-text').textContent = '';
  find('verdict').textContent = '';
  find('state-at').textContent = '';
  find('tables').replaceChildren();
  lastState = '';
};

// Compiles a plan, and returns it with its script; a script is its own
const scriptOf = async text => {
  if (isScript(text)) return { script: text, plan: '' };
  const told = await typing.call('mcs_compile', text);
  return told.status ? { fault: told } : { script: told.text, plan: text };
};

// Shows the script of the text: its run, or that it has many
const showMade = async () => {
  if (!made.isUsers) return show({ script: made.script, plan: made.plan, name: '' });
  const many = 'Users run in many orders: search them under All orders, and open one.';
  clear();
  shown = { script: made.script, plan: made.plan, name: '' };
  find('shown').hidden = true;
  find('script-text').innerHTML = made.script.split('\n').map(coloured).join('\n');
  await showPicture({ status: 0, text: '' });
  find('step').textContent = find('verdict').textContent = many;
  find('verdict').className = '';
  return undefined;
};

const refresh = async () => {
  const mine = ++round;
  // calls of a text that is no more shown are not waited for
  if (typing && typing.waiting.size > 8) typing.stop(superseded);
  const text = find('text').value;
  find('lesson').hidden = !goalOf(text);
  if (!typing) return;
  const next = await scriptOf(text);
  if (mine !== round) return;
  hereLine = 0;
  clear();
  if (isSearching) searching.stop(superseded);
  showFound({ text: '' });
  tellProgress('');
  if (next.fault) {
    made = { script: '', plan: '', isUsers: false };
    shown = { script: '', plan: '', name: '' };
    find('shown').hidden = true;
    find('script-text').textContent = '';
    tellFault(next.fault, next.fault.line);
    await showPicture({ status: 2, text: '' });
    setSearching(false);
    return;
  }
  mark(0, '');
  made = { ...next, isUsers: isUsers(next.script) };
  setSearching(false);
  if (!made.isUsers) tellProgress('The text has steps, and so one order. A plan with users or programs has many.');
  await showMade();
};

const guarded = work => async (...words) => {
  try {
    await work(...words);
  } catch (fault) {
    if (fault.message !== superseded) mark(0, `The call ended: ${fault.message}. The page goes on.`);
  }
};
const refreshed = guarded(refresh);

let timer;
const typed = () => {
  faultLine = hereLine = 0;
  paint();
  clearTimeout(timer);
  timer = setTimeout(refreshed, 120);
};

const setText = text => {
  find('text').value = text;
  find('answered').textContent = '';
  find('editor').scrollTo(0, 0);
  faultLine = hereLine = 0;
  paint();
  return refreshed();
};

// ---- tabs

let tabs = [...document.querySelectorAll('[role=tab]')];

// Takes the views away that the module has nothing for
const leaveOut = () => {
  const missing = { picture: 'mcs_draw', state: 'mcs_state' };
  for (const [name, needed] of Object.entries(missing)) {
    find(`tab-${name}`).hidden = !exported.has(needed);
    find(name).hidden = true;
  }
  find('why-part').hidden = !exported.has('mcs_why');
  tabs = tabs.filter(tab => !tab.hidden);
  choose(tabs[0].id.slice(4));
};

const choose = name => {
  for (const tab of tabs) {
    const is = tab.id === `tab-${name}`;
    tab.setAttribute('aria-selected', String(is));
    tab.tabIndex = is ? 0 : -1;
    find(tab.getAttribute('aria-controls')).hidden = !is;
  }
  if (name === 'picture' || name === 'state') step();
};

for (const tab of tabs) {
  tab.addEventListener('click', () => choose(tab.id.slice(4)));
  tab.addEventListener('keydown', event => {
    const at = tabs.indexOf(tab);
    const to = { ArrowRight: at + 1, ArrowLeft: at + tabs.length - 1, Home: 0, End: tabs.length - 1 }[event.key];
    if (to === undefined) return;
    const next = tabs[to % tabs.length];
    choose(next.id.slice(4));
    next.focus();
    event.preventDefault();
  });
}

// ---- links, downloads, examples

const packed = async (bytes, way) => new Uint8Array(await new Response(new Blob([bytes]).stream().pipeThrough(way)).arrayBuffer());
const toBase64 = bytes => btoa(Array.from(bytes, byte => String.fromCharCode(byte)).join(''));
const fromBase64 = text => Uint8Array.from(atob(text), c => c.charCodeAt(0));

const toLink = async text => {
  const bytes = await packed(new TextEncoder().encode(text), new CompressionStream('deflate-raw'));
  return '#text=' + toBase64(bytes).replace(/\+/g, '-').replace(/\//g, '_').replace(/=+$/, '');
};

const fromLink = async hash => {
  const [, code] = /^#text=([\w-]+)$/.exec(hash) || [];
  if (!code) return null;
  const bytes = fromBase64(code.replace(/-/g, '+').replace(/_/g, '/'));
  return new TextDecoder().decode(await packed(bytes, new DecompressionStream('deflate-raw')));
};

const save = (name, kind, text) => {
  const link = element('a');
  link.href = URL.createObjectURL(new Blob([text], { type: kind }));
  link.download = name;
  link.click();
  setTimeout(() => URL.revokeObjectURL(link.href), 1000);
};

const addExamples = () => {
  for (const [group, examples] of Object.entries(data.examples)) {
    const box = element('optgroup');
    box.label = group;
    for (const { name } of examples) {
      const option = element('option', name);
      option.value = `${group}/${name}`;
      box.append(option);
    }
    find('examples').append(box);
  }
};

const exampleAt = path => Object.entries(data.examples)
  .flatMap(([group, all]) => all.map(one => ({ ...one, path: `${group}/${one.name}` }))).find(one => one.path === path);

const openExample = async path => {
  const example = exampleAt(path);
  if (!example) return;
  find('examples').value = path;
  history.replaceState(null, '', '#example=' + encodeURIComponent(path));
  await setText(example.text);
  if (made.isUsers) choose('orders');
  else if (!find('orders').hidden) choose(tabs[0].id.slice(4));
};

const openAddress = async () => {
  const [, path] = /^#example=(.+)$/.exec(location.hash) || [];
  if (path) return openExample(decodeURIComponent(path));
  const text = await fromLink(location.hash).catch(() => null);
  if (text === null) return openExample(data.first);
  find('examples').value = '';
  return setText(text);
};

const listen = () => {
  find('text').addEventListener('input', () => {
    find('examples').value = '';
    typed();
  });
  find('examples').addEventListener('change', event => guarded(openExample)(event.target.value));
  find('link').addEventListener('click', async () => {
    history.replaceState(null, '', await toLink(find('text').value));
    await navigator.clipboard.writeText(location.href).then(
      () => { find('linked').textContent = 'The link is copied.'; },
      () => { find('linked').textContent = 'The link is in the address bar.'; },
    );
  });
  addEventListener('hashchange', guarded(openAddress));
  find('slider').addEventListener('input', guarded(step));
  find('back').addEventListener('click', () => guarded(go)(Number(find('slider').value) - 1));
  find('next').addEventListener('click', () => guarded(go)(Number(find('slider').value) + 1));
  find('drawing').addEventListener('keydown', event => {
    if (event.altKey || event.ctrlKey || event.metaKey || event.shiftKey || !picture) return;
    const now = Number(find('slider').value);
    const to = { ArrowDown: now + 1, ArrowUp: now - 1, Home: 0, End: Number(find('slider').max) }[event.key];
    if (to === undefined) return;
    guarded(go)(to);
    event.preventDefault();
  });
  drawing.addEventListener('click', event => {
    const row = event.target.closest('g.row');
    if (row) guarded(go)(row.dataset.line);
  });
  find('shown-back').addEventListener('click', () => {
    hereLine = 0;
    guarded(showMade)();
    find('text').focus();
  });
  find('search').addEventListener('click', () => search());
  find('stop').addEventListener('click', () => searching.stop('stopped'));
  find('answer').addEventListener('click', guarded(answer));
  find('save-picture').addEventListener('click', () => picture && save('picture.svg', 'image/svg+xml', picture.text));
  find('save-trace').addEventListener('click', () => save('trace.mcs', 'text/plain', find('trace-text').textContent));
  find('save-script').addEventListener('click', () => save('script.mcs', 'text/plain', shown.script));
  find('save-report').addEventListener('click', () => save('report.txt', 'text/plain', report.text));
};

// ---- the start

// The least module with a memory of 64 bits
const least = new Uint8Array([0, 97, 115, 109, 1, 0, 0, 0, 5, 3, 1, 4, 0]);

const tellMissing = why => {
  document.querySelector('footer').classList.add('bad');
  find('about').textContent = why;
  mark(0, why);
};

const start = async () => {
  addExamples();
  listen();
  choose('picture');
  if (!WebAssembly.validate(least)) {
    tellMissing('This browser has no WebAssembly memories of 64 bits, which the simulator needs: nothing is computed here. '
      + 'The texts can be read, changed, and kept as links. A current Chromium (133 or later) or Firefox (134 or later) has them.');
  } else {
    const module = await WebAssembly.compile(await packed(fromBase64(data.module), new DecompressionStream('gzip')));
    exported = new Set(WebAssembly.Module.exports(module).map(one => one.name));
    leaveOut();
    typing = new Caller(module);
    searching = new Caller(module);
  }
  await openAddress();
  document.body.dataset.ready = 'yes';
};

start().catch(fault => tellMissing(`The page did not start: ${fault.message}`));
