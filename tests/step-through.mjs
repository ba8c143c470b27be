// Steps through a page that `mcslab draw --format html` wrote, in a headless Chromium (Debian's package `chromium`), by its debugging
// port: each line from the first to the last by keys, and back by the slider. It fails where the picture does not follow.
//
//     node --experimental-websocket tests/step-through.mjs PAGE.html
import { spawn } from 'node:child_process';
import { mkdtempSync, rmSync } from 'node:fs';
import { tmpdir } from 'node:os';
import { join, resolve } from 'node:path';

const page = 'file://' + resolve(process.argv[2]);
const folder = mkdtempSync(join(tmpdir(), 'step-through-'));
const browser = spawn('chromium', ['--headless', '--no-sandbox', '--disable-gpu',
  '--remote-debugging-port=0', '--user-data-dir=' + folder, page], { stdio: ['ignore', 'ignore', 'pipe'] });

// the browser tells its port on its error output
const address = await new Promise((found, failed) => {
  let told = '';
  browser.stderr.on('data', piece => {
    told += piece;
    const match = told.match(/ws:\/\/([^/]+)\//);
    if (match) found(match[1]);
  });
  browser.on('exit', () => failed(new Error(told)));
});

async function socketOfPage() {
  for (let again = 0; again < 50; again++) {
    const tabs = await (await fetch('http://' + address + '/json')).json();
    const tab = tabs.find(one => one.type === 'page' && one.url === page);
    if (tab) return new WebSocket(tab.webSocketDebuggerUrl);
    await new Promise(done => setTimeout(done, 100));
  }
  throw new Error('the page is not open');
}

const socket = await socketOfPage();
await new Promise(done => socket.addEventListener('open', done));
let last = 0;
const ask = (method, params) => new Promise(done => {
  const id = ++last;
  const hear = event => {
    const said = JSON.parse(event.data);
    if (said.id !== id) return;
    socket.removeEventListener('message', hear);
    done(said.result);
  };
  socket.addEventListener('message', hear);
  socket.send(JSON.stringify({ id, method, params }));
});
const value = async expression =>
  (await ask('Runtime.evaluate', { expression, returnByValue: true })).result.value;
const press = key => ask('Input.dispatchKeyEvent', { type: 'keyDown', key, code: key });
const want = (holds, what) => { if (!holds) throw new Error(what); };

let status = 0;
try {
  while (await value('document.readyState') !== 'complete') await new Promise(done => setTimeout(done, 50));
  const first = Number(await value("document.getElementById('slider').min"));
  const end = Number(await value("document.getElementById('slider').max"));
  want(end > first, 'the slider has no lines');
  const shows = async line => {
    want(Number(await value("document.getElementById('number').textContent")) === line, 'not at line ' + line);
    // a line that reaches no lane has no row: the one before it is marked
    const row = await value("Math.max(...[...document.querySelectorAll('g.row')].map(row => Number(row.dataset.line))" +
      '.filter(number => number <= ' + line + '))');
    want(await value("document.querySelector('g.row.here').dataset.line") === String(row), 'another row is marked at ' + line);
    const told = await value("document.getElementById('step').textContent");
    want(row === line || told === 'Line ' + line + ' reaches no thread that is shown.', 'another step is told at ' + line);
    want(await value("document.querySelectorAll('#states li').length > 0"), 'no states at line ' + line);
    want(await value("[...document.querySelectorAll('path.arrow[data-line], circle[data-line]')].every(one => " +
      "one.classList.contains('past') === (Number(one.dataset.line) > " + line + '))'), 'arrows or dots at line ' + line);
  };
  await press('Home');
  await shows(first);
  for (let line = first + 1; line <= end; line++) {
    await press('ArrowDown');
    await shows(line);
  }
  for (let line = end; line >= first; line--) {
    await value("{ const slider = document.getElementById('slider'); slider.value = " + line +
      "; slider.dispatchEvent(new Event('input')); }");
    await shows(line);
  }
  console.log(process.argv[2] + ': stepped through lines ' + first + ' to ' + end);
} catch (error) {
  console.error(process.argv[2] + ': ' + error.message);
  status = 1;
}
socket.close();
browser.kill();
await new Promise(done => browser.on('exit', done));
rmSync(folder, { recursive: true, force: true, maxRetries: 20, retryDelay: 100 });
process.exit(status);
