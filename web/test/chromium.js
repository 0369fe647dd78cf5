'use strict'
// Chromium without a window, driven over a pipe by the DevTools protocol.
const { spawn } = require('node:child_process'), { mkdtempSync, rmSync } = require('node:fs')
const { tmpdir } = require('node:os'), { join } = require('node:path')

const MOST_TRIES = 400

function start(program) {
  const folder = mkdtempSync(join(tmpdir(), 'page-'))
  const words = ['--headless=new', '--no-sandbox', '--remote-debugging-pipe', `--user-data-dir=${folder}`, 'about:blank']
  const browser = spawn(program, words, { stdio: ['ignore', 'ignore', 'ignore', 'pipe', 'pipe'] })
  const waiting = new Map(), thrown = []
  let text = '', last = 0
  browser.stdio[4].on('data', bytes => {
    const parts = (text += bytes).split('\0')
    text = parts.pop()
    for (const { id, result, error, method, params } of parts.map(part => JSON.parse(part))) {
      if (method === 'Runtime.exceptionThrown') thrown.push(params.exceptionDetails.exception?.description ?? params.exceptionDetails.text)
      if (waiting.has(id)) waiting.get(id)({ result, error })
      waiting.delete(id)
    }
  })
  const ask = async (method, params = {}, sessionId) => {
    const answer = new Promise(done => waiting.set(++last, done))
    browser.stdio[3].write(JSON.stringify({ id: last, method, params, sessionId }) + '\0')
    const { result, error } = await answer
    if (error) throw new Error(`${method}: ${error.message}`)
    return result
  }
  const stop = () => new Promise(done => {
    browser.on('exit', () => { rmSync(folder, { recursive: true, force: true, maxRetries: 5 }); done() })
    browser.kill()
  })
  return { ask, stop, thrown }
}

// Opens an address in a window of this size and theme. What its script throws and does not catch goes to `thrown`.
// `value` is what an expression of the page has, once a promise of it is kept.
async function openPage({ ask }, url, { width = 1400, height = 900, theme = 'light' } = {}) {
  const { targetId } = await ask('Target.createTarget', { url: 'about:blank' })
  const { sessionId } = await ask('Target.attachToTarget', { targetId, flatten: true })
  const send = (method, params) => ask(method, params, sessionId)
  const value = async expression => {
    const { result, exceptionDetails } = await send('Runtime.evaluate', { expression, returnByValue: true, awaitPromise: true })
    if (exceptionDetails) throw new Error(exceptionDetails.exception?.description ?? exceptionDetails.text)
    return result.value
  }
  await send('Emulation.setDeviceMetricsOverride', { width, height, deviceScaleFactor: 1, mobile: width < 600 })
  const features = [{ name: 'prefers-color-scheme', value: theme }, { name: 'prefers-reduced-motion', value: 'reduce' }]
  await send('Emulation.setEmulatedMedia', { features })
  await send('Runtime.enable')
  await send('Page.navigate', { url })
  const isReady = 'typeof session === "object" && session && typeof view === "object" && view && !busy'
  const ready = async () => {
    for (let tries = 0; !await value(isReady); tries++) {
      if (tries === MOST_TRIES) throw new Error(`the page is not ready: ${await value('document.body.innerText.slice(0, 200)')}`)
      await new Promise(done => setTimeout(done, 50))
    }
  }
  await ready()
  const close = () => ask('Target.closeTarget', { targetId })
  return { send, value, ready, close }
}

module.exports = { start, openPage }
