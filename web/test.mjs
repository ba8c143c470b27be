#!/usr/bin/env node
// node web/test.mjs: opens web/playground.html in headless Chromium, from the file system and without
// a network, and compares what it makes of each example with what mcslab makes of it.
//   CHROMIUM  the browser (chromium)
//   MCSLAB    mcslab (crates/mcslab/out/mcslab); where it is not there, the files beside the examples
//   SHOTS     a folder for pictures of the page
import { spawn, spawnSync } from 'node:child_process';
import { existsSync, mkdtempSync, readFileSync, rmSync, writeFileSync } from 'node:fs';
import { tmpdir } from 'node:os';
import { dirname, join } from 'node:path';
import { fileURLToPath, pathToFileURL } from 'node:url';

const here = dirname(fileURLToPath(import.meta.url));
const page = process.argv[2] || join(here, 'playground.html');
const mcslab = process.env.MCSLAB || join(here, '../crates/mcslab/out/mcslab');
const data = join(here, '../crates/mcs_test_examples/data');
const room = mkdtempSync(join(tmpdir(), 'playground-'));
const hasLab = existsSync(mcslab);

let failed = 0, passed = 0;
const check = (holds, what) => {
  if (holds) {
    passed += 1;
    return;
  }
  failed += 1;
  console.log(`FAILED: ${what}`);
};

// ---- the browser, by its protocol over a pipe

const browser = spawn(process.env.CHROMIUM || 'chromium', [
  '--headless', '--no-sandbox', '--disable-gpu', '--no-first-run', '--disable-extensions', '--remote-debugging-pipe',
  '--host-resolver-rules=MAP * ~NOTFOUND', `--user-data-dir=${join(room, 'profile')}`, 'about:blank',
], { stdio: ['ignore', 'ignore', 'ignore', 'pipe', 'pipe'] });
const waiting = new Map(), heard = [];
let last = 0, left = '';
browser.stdio[4].setEncoding('utf8').on('data', piece => {
  const parts = (left + piece).split('\0');
  left = parts.pop();
  for (const part of parts) {
    const message = JSON.parse(part);
    const { good, bad } = waiting.get(message.id) || {};
    if (!good) heard.push(message);
    else if (message.error) bad(new Error(message.error.message));
    else good(message.result);
    waiting.delete(message.id);
  }
});
let sessionId;
const send = (method, params = {}) => new Promise((good, bad) => {
  const id = ++last;
  waiting.set(id, { good, bad });
  browser.stdio[3].write(JSON.stringify({ id, method, params, sessionId }) + '\0');
});

const run = async (expression, ms = 120000) => {
  const told = await send('Runtime.evaluate', { expression, awaitPromise: true, returnByValue: true, timeout: ms });
  if (told.exceptionDetails) throw new Error(told.exceptionDetails.exception?.description || told.exceptionDetails.text);
  return told.result.value;
};

const until = async (expression, ms = 60000) => {
  const end = Date.now() + ms;
  while (!(await run(expression).catch(() => false))) {
    if (Date.now() > end) return false;
    await new Promise(go => setTimeout(go, 50));
  }
  return true;
};

const open = async (hash = '') => {
  await send('Page.navigate', { url: 'about:blank' });
  await send('Page.navigate', { url: pathToFileURL(page).href + hash });
  return until('document.body.dataset.ready === "yes"');
};

const shot = async name => {
  if (!process.env.SHOTS) return;
  const { data: bytes } = await send('Page.captureScreenshot', { format: 'png' });
  writeFileSync(join(process.env.SHOTS, `${name}.png`), Buffer.from(bytes, 'base64'));
};

const size = (width, height) => send('Emulation.setDeviceMetricsOverride', { width, height, deviceScaleFactor: 1, mobile: false });

// ---- mcslab

// What mcslab makes of a text, whose file has the name of a plan, or of a script
const lab = (words, text, isPlan = false) => {
  const file = join(room, isPlan ? 'text.plan' : 'text.mcs');
  writeFileSync(file, text);
  const { stdout, status } = spawnSync(mcslab, [...words, file], { encoding: 'utf8', maxBuffer: 1 << 28 });
  return { text: stdout, status };
};

const compiled = plan => lab(['compile'], plan, true).text;

// ---- the tests

const everyExample = async () => {
  const examples = JSON.parse(await run('JSON.stringify(data.examples)'));
  let count = 0;
  for (const [group, all] of Object.entries(examples)) {
    for (const { name, text } of all) {
      await oneExample(`${group}/${name}`, text);
      count += 1;
    }
  }
  console.log(`${count} examples: opened, checked, drawn and explored`);
};

const oneExample = async (path, text) => {
  await run(`openExample(${JSON.stringify(path)})`);
  check(await run('find("text").value') === text, `${path}: its text is another one`);
  check(await run('!find("fault").classList.contains("bad")'), `${path}: ${await run('find("fault").textContent')}`);
  const { script, isUsers } = JSON.parse(await run('JSON.stringify(made)'));
  const [group, name] = path.split('/');
  const beside = join(data, group === 'Scripts' ? '' : group.toLowerCase(), name.replace(/\.[a-z]*$/, ''));
  const isPlan = name.endsWith('.plan');
  if (isPlan) {
    if (hasLab) check(compiled(text) === script, `${path}: another script than mcslab's`);
    if (existsSync(`${beside}.mcs`)) check(readFileSync(`${beside}.mcs`, 'utf8') === script, `${path}: another script than the one beside it`);
  }
  if (isUsers) await oneSearch(path, text, isPlan);
  else await oneRun(path, text, isPlan, beside);
};

const oneRun = async (path, text, isPlan, beside) => {
  if (await has('mcs_draw')) await onePicture(path, text, isPlan, beside);
  if (!hasLab) return;
  const calls = [['callOf(typing, "mcs_check", made)', ['check']], ['callOf(typing, "mcs_why", made)', ['why']],
    ['typing.call("mcs_state", made.script)', ['state', '--json']]];
  for (const [call, words] of calls) {
    const told = JSON.parse(await run(`(async () => JSON.stringify(await ${call}))()`));
    const wanted = lab(words, text, isPlan);
    check(wanted.text === told.text && wanted.status === told.status, `${path}: ${call} and mcslab tell other texts`);
  }
};

// Whether the module has an export; without it a view of the page is not there
const has = name => run(`exported.has("${name}")`);

const onePicture = async (path, text, isPlan, beside) => {
  const svg = await run('picture && picture.text');
  check(Boolean(svg), `${path}: no picture`);
  if (!isPlan && existsSync(`${beside}.svg`)) check(readFileSync(`${beside}.svg`, 'utf8') === svg, `${path}: another picture than the one beside it`);
  if (hasLab) check(lab(['draw'], text, isPlan).text === svg, `${path}: another picture than mcslab's`);
  const words = await run('find("step").textContent');
  if (isPlan) check(!/^(Line \d+: )?\d+ t\d+ /.test(words), `${path}: a step has the script's words: ${words}`);
};

const oneSearch = async (path, text, isPlan) => {
  await run('search()');
  const report = await run('report.text');
  check(report.length > 0, `${path}: no report`);
  if (hasLab) check(lab(['explore', '--states', '20000'], text, isPlan).text === report, `${path}: another report than mcslab's`);
  if (!(await run('Boolean(document.querySelector("#found button"))'))) return;
  await run('document.querySelector("#found button").click()');
  check(await until('!find("shown").hidden && picture && !find("picture").hidden'), `${path}: a click opens no picture`);
  const order = await run('shown.script');
  if (hasLab) check(lab(['draw'], order).text === await run('picture.text'), `${path}: another picture of an order than mcslab's`);
};

// Four threads on a core each, with twelve signals each: 13^4 states
const many = ['cores 4'].concat(...[0, 1, 2, 3].map(i => [`notification n${i}x`, `thread t${i}x prio 10 on core ${i}`, `t${i}x has n${i}x:w=1`]))
  .concat(...[0, 1, 2, 3].map(i => Array(12).fill(`user t${i}x: signal n${i}x`))).join('\n') + '\n';

const aLongSearch = async () => {
  await run(`setText(${JSON.stringify(many)})`);
  const took = await run('(async () => { const from = performance.now(); await search(); return performance.now() - from; })()');
  const count = Number(await run('/^stopped at (\\d+) states/.exec(report.text)?.[1]'));
  check(count > 19000 && count <= 20000, `a budget of 20,000 states ended at ${count}`);
  check(took < 5000, `20,000 states took ${took} ms`);
  console.log(`${count} states: ${(took / 1000).toFixed(2)} s`);
  await run('find("most").value = "1000000"; find("search").click()');
  check(await until('/states were searched/.test(find("progress").textContent)'), 'no progress is told');
  await run('find("stop").click()');
  check(await until('/stopped/.test(find("progress").textContent) && find("stop").disabled'), 'a stop ends nothing');
  check(await run('report.text.length > 0'), 'a stop leaves no report');
  await run('find("most").value = "20000"');
};

const faults = async () => {
  const plan = 'endpoint e\nthread a prio 1\na has e:wx\na: send e 1\n';
  await run(`(() => { find('text').value = ${JSON.stringify(plan)}; find('text').dispatchEvent(new Event('input')); })()`);
  check(await until('find("gutter").querySelector(".bad")?.textContent === "3"'), 'a fault of a plan is not marked at its line');
  check(/^Line 3: /.test(await run('find("fault").textContent')), 'a fault of a plan is not told');
  await shot('fault');
  await run('setText("cores 1\\ncnode 1\\ncontext 0\\nthread 10 255 c1 63 0 run s1\\n0 t1 sendd 1\\n")');
  check(await until('find("gutter").querySelector(".bad")?.textContent === "5"'), 'a fault of a script is not marked at its line');
  await run(`setText(${JSON.stringify(plan.replace('wx', 'w'))})`);
  check(await until('!find("gutter").querySelector(".bad") && !find("fault").textContent'), 'a mended fault stays');
};

const keysAndLinks = async () => {
  await run('openExample("Gallery/deadlock.plan")');
  if (await has('mcs_draw')) {
    await run('choose("picture"); find("drawing").focus()');
    const before = await run('Number(find("slider").value)');
    await run('find("drawing").dispatchEvent(new KeyboardEvent("keydown", { key: "ArrowUp", cancelable: true }))');
    check(await run('Number(find("slider").value)') === before - 1, 'a key does not step');
  }
  await run('tabs[0].dispatchEvent(new KeyboardEvent("keydown", { key: "ArrowRight", cancelable: true }))');
  check(await run('tabs[1].getAttribute("aria-selected") === "true" && tabs[0].tabIndex === -1'), 'a key does not change the view');
  if (await has('mcs_state')) {
    await run('choose("state")');
    check(await until('document.querySelectorAll("#tables table").length > 2'), 'no state is shown');
  }
  const unnamed = await run(`[...document.querySelectorAll('button,select,textarea,input,[role=tabpanel]')]
    .filter(one => !one.textContent.trim() && !one.getAttribute('aria-label') && !one.getAttribute('aria-labelledby') && !(one.labels && one.labels.length)).map(one => one.id).join(' ')`);
  check(unnamed === '', `without a name for a screen reader: ${unnamed}`);
  await run('setText("# Größe → 1\\nendpoint e\\n")');
  await run('find("link").click()');
  check(await until('location.hash.startsWith("#text=")'), 'no link is put into the address');
  const hash = await run('location.hash');
  check(await open(hash) && await run('find("text").value') === '# Größe → 1\nendpoint e\n', 'a link carries another text');
};

const memory = async () => {
  const told = JSON.parse(await run(`(() => {
    const Engine = new Function(find('engine').textContent.split('onmessage =')[0] + '\\nreturn Engine;')();
    const engine = new Engine(typing.module);
    const blocks = [];
    try { for (;;) blocks.push(engine.take(1n << 30n)); } catch (fault) { /* no more is granted */ }
    try { for (;;) blocks.push(engine.take(1n << 16n)); } catch (fault) { /* none at all */ }
    let full;
    try { full = engine.call('mcs_compile', 'endpoint e\\n').status; } catch (fault) { full = fault.message; }
    for (const block of blocks) engine.exports.mcs_give_back(block);
    return JSON.stringify({ count: blocks.length, full, after: engine.call('mcs_compile', 'endpoint e\\n').status });
  })()`));
  check(told.full === 6 || told.full === 'memory is refused', `refused memory ends as ${told.full}`);
  check(told.after === 0, `after refused memory a call ends with ${told.after}`);
};

// How each lesson is answered
const answers = [
  ['1', [['? got 7 2', '? waits'], ['send door 2\n? waits', 'send door 2\n? done']]],
  ['2', [['? got 2 0', '? got 4 0'], ['? got 1 0', '? got 2 0']]],
  ['3', [['\n? shop.reply owes client\nclient: call shop 2\n? client owed shop.reply', '\n? shop.reply owes -\nclient: call shop 2\n? client waits shop.send']]],
  ['4', [['2\n? client holds client.context', '2\n? fs holds client.context'], ['0\n? fs holds client.context\n#:', '0\n? fs holds -\n#:']]],
  ['5', [['? driver heard 5', '? driver heard 1'], ['? irq pending 1', '? irq pending -']]],
  ['6', [['? door.send -', '? door.send ?'], ['? door.send anna', '? door.send -'], ['? door.send ?', '? door.send anna']]],
  ['7', [['nbrecv', 'recv']]],
  ['8', [['? done', '? refused 1'], ['? server got 77 3', '? server got 78 3']]],
];

const lessons = async () => {
  const names = await run('data.examples.Lessons.map(one => one.name)');
  check(names.length === 8, `${names.length} lessons`);
  for (const name of names) {
    await run(`openExample("Lessons/${name}")`);
    check(await run('!find("lesson").hidden'), `${name}: no question`);
    await run('answer()');
    check(/^Not yet/.test(await run('find("answered").textContent')), `${name}: the question is answered from the start`);
    const [, edits] = answers.find(([number]) => name.startsWith(`${number}-`));
    let text = await run('find("text").value');
    for (const [old, better] of edits) text = text.replace(old, better);
    await run(`setText(${JSON.stringify(text)})`);
    await run('answer()');
    check(/^Right/.test(await run('find("answered").textContent')), `${name}: ${await run('find("answered").textContent')}`);
  }
  console.log(`${names.length} lessons: answered`);
};

const widths = async () => {
  for (const [width, height] of [[400, 800], [1600, 900]]) {
    await size(width, height);
    for (const path of ['Gallery/nested-calls.plan', 'Explore/disk-log.plan', 'Lessons/1-a-send-that-waits.plan']) {
      await run(`openExample(${JSON.stringify(path)})`);
      if (path.startsWith('Explore')) await run('search()');
      for (const tab of await run('tabs.map(tab => tab.id.slice(4))')) {
        await run(`choose("${tab}")`);
        check(await run('document.scrollingElement.scrollWidth <= innerWidth'), `${path}: wider than ${width} pixels: ${tab}`);
        check(await run(`find("${tab}").getBoundingClientRect().width > ${width} / 3`), `${path}: no room at ${width} pixels: ${tab}`);
        await new Promise(go => setTimeout(go, 100));
        await shot(`${width}-${path.replace(/\W+/g, '-')}-${tab}`);
      }
    }
  }
  await send('Emulation.setEmulatedMedia', { features: [{ name: 'prefers-color-scheme', value: 'dark' }] });
  await run('openExample("Gallery/nested-calls.plan")');
  await shot('dark');
  await send('Emulation.setEmulatedMedia', { features: [] });
};

const withoutMemories = async () => {
  const { identifier } = await send('Page.addScriptToEvaluateOnNewDocument', { source: 'WebAssembly.validate = () => false;' });
  check(await open(), 'no page without memories of 64 bits');
  check(/64 bits/.test(await run('find("about").textContent')), 'missing memories are not told');
  check(await run('find("text").value.length > 0'), 'no text without memories of 64 bits');
  await send('Page.removeScriptToEvaluateOnNewDocument', { identifier });
};

const main = async () => {
  const { targetInfos } = await send('Target.getTargets');
  const { targetId } = targetInfos.find(one => one.type === 'page');
  ({ sessionId } = await send('Target.attachToTarget', { targetId, flatten: true }));
  for (const name of ['Page', 'Runtime', 'Network']) await send(`${name}.enable`);
  await size(1600, 900);
  if (!hasLab) console.log(`skipped: comparing with mcslab, which is not at ${mcslab}`);
  check(await open(), 'the page does not start');
  for (const test of [faults, everyExample, lessons, aLongSearch, keysAndLinks, memory, widths, withoutMemories]) {
    try {
      await test();
    } catch (fault) {
      check(false, `${test.name}: ${fault.message}`);
      await open();
    }
  }
  const thrown = heard.filter(one => one.method === 'Runtime.exceptionThrown').map(one => one.params.exceptionDetails.exception?.description);
  check(thrown.length === 0, `the page threw: ${thrown[0]}`);
  const asked = heard.filter(one => one.method === 'Network.requestWillBeSent').map(one => one.params.request.url);
  check(asked.every(url => /^(file|blob|data|about):/.test(url)), `the page asked for ${asked.find(url => !/^(file|blob|data|about):/.test(url))}`);
  console.log(`${passed} passed, ${failed} failed`);
};

await main().catch(fault => { failed += 1; console.log(`FAILED: ${fault.stack}`); });
browser.kill();
await new Promise(go => browser.once('exit', go));
rmSync(room, { recursive: true, force: true, maxRetries: 9, retryDelay: 200 });
process.exit(failed ? 1 : 0);
