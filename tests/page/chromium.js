// Drives a headless Chromium over its DevTools protocol, through the pipe of descriptors 3 and 4;
// node alone, no package.
//   const c = await Chromium.start(path, profile); await c.open(url); await c.evaluate('1 + 1');
//     await c.stop();
'use strict';
const { spawn } = require('child_process');

class Chromium {
  static async start(path, profile) {
    const c = new Chromium();
    c.process = spawn(path, ['--headless=new', '--no-sandbox', '--disable-gpu', '--disable-dev-shm-usage', '--no-first-run', '--disable-extensions', '--hide-scrollbars', '--user-data-dir=' + profile, '--remote-debugging-pipe', 'about:blank'],
      { stdio: ['ignore', 'ignore', 'ignore', 'pipe', 'pipe'] });
    c.waiting = new Map();
    c.last = 0;
    c.requests = [];
    c.errors = [];
    let rest = Buffer.alloc(0);
    c.process.stdio[4].on('data', (d) => {
      rest = Buffer.concat([rest, d]);
      for (let end; (end = rest.indexOf(0)) >= 0; rest = rest.subarray(end + 1)) c.hear(JSON.parse(rest.subarray(0, end).toString()));
    });
    const { targetInfos } = await c.send('Target.getTargets');
    const { sessionId } = await c.send('Target.attachToTarget', { targetId: targetInfos.find((t) => t.type === 'page').targetId, flatten: true });
    c.session = sessionId;
    for (const domain of ['Page', 'Runtime', 'Network', 'DOM']) await c.send(domain + '.enable');
    return c;
  }
  hear(m) {
    if (m.id && this.waiting.has(m.id)) {
      const { yes, no } = this.waiting.get(m.id);
      this.waiting.delete(m.id);
      if (m.error) no(new Error(m.error.message)); else yes(m.result);
    }
    if (m.method === 'Page.loadEventFired' && this.loaded) this.loaded();
    if (m.method === 'Network.requestWillBeSent') this.requests.push(m.params.request.url);
    if (m.method === 'Runtime.exceptionThrown') this.errors.push(m.params.exceptionDetails.text + ' ' + ((m.params.exceptionDetails.exception || {}).description || ''));
    if (m.method === 'Page.javascriptDialogOpening') this.send('Page.handleJavaScriptDialog', { accept: true });
  }
  send(method, params) {
    const id = ++this.last, m = { id, method, params: params || {} };
    if (this.session) m.sessionId = this.session;
    this.process.stdio[3].write(JSON.stringify(m) + '\0');
    return new Promise((yes, no) => this.waiting.set(id, { yes, no }));
  }
  async open(url) {
    const loaded = new Promise((yes) => { this.loaded = yes; });
    await this.send('Page.navigate', { url });
    await loaded;
  }
  async evaluate(expression) {
    const r = await this.send('Runtime.evaluate', { expression: '(async () => (' + expression + '))()', awaitPromise: true, returnByValue: true });
    if (r.exceptionDetails) throw new Error((r.exceptionDetails.exception || {}).description || r.exceptionDetails.text);
    return r.result.value;
  }
  async files(selector, paths) {
    const { root } = await this.send('DOM.getDocument'), { nodeId } = await this.send('DOM.querySelector', { nodeId: root.nodeId, selector });
    await this.send('DOM.setFileInputFiles', { files: paths, nodeId });
  }
  // Files dropped at a point of the page, as a person drops them.
  async drop(x, y, paths) {
    const data = { items: [], files: paths, dragOperationsMask: 1 };
    for (const type of ['dragEnter', 'dragOver', 'drop']) await this.send('Input.dispatchDragEvent', { type, x, y, data });
  }
  async key(key) {
    const code = { ArrowLeft: 37, ArrowRight: 39, PageUp: 33, PageDown: 34, Tab: 9, Enter: 13, Home: 36, End: 35 }[key], more = key === 'Enter' ? { text: '\r' } : {};
    await this.send('Input.dispatchKeyEvent', { type: more.text ? 'keyDown' : 'rawKeyDown', key, code: key, windowsVirtualKeyCode: code, ...more });
    await this.send('Input.dispatchKeyEvent', { type: 'keyUp', key, code: key, windowsVirtualKeyCode: code });
  }
  width(width, height) { return this.send('Emulation.setDeviceMetricsOverride', { width, height: height || 900, deviceScaleFactor: 1, mobile: width < 600 }); }
  async shot(whole) { const r = await this.send('Page.captureScreenshot', { format: 'png', captureBeyondViewport: !!whole }); return Buffer.from(r.data, 'base64'); }
  async pdf() { const r = await this.send('Page.printToPDF', { printBackground: false }); return Buffer.from(r.data, 'base64'); }
  async stop() {
    const ended = new Promise((yes) => this.process.on('exit', yes));
    this.session = '';
    try { this.send('Browser.close'); } catch (_) { this.process.kill(); }
    const late = setTimeout(() => this.process.kill('SIGKILL'), 5000);
    await ended;
    clearTimeout(late);
  }
}
module.exports = Chromium;
