'use strict'
// The tests of out/page.html in Chromium: a line for each. test.sh calls it, with the folder of what was built; in it are the page, the module
// and, where the library for the host was there, in native/ the programs list, make_image and replay.
const { readFileSync, writeFileSync, mkdtempSync, mkdirSync, existsSync, rmSync } = require('node:fs')
const { execFileSync } = require('node:child_process'), { createHash } = require('node:crypto'), { gzipSync } = require('node:zlib')
const { tmpdir } = require('node:os'), { join, resolve } = require('node:path')
const { start, openPage } = require('./chromium.js'), { readImage, treeOf } = require('./footprint.js')
const { drawnTrace } = require('./trace.js'), { replay } = require('./replay.js')
const { SCRIPT_CALLS, SCRIPT_COSTS, keptByHand } = require('./stored_script.js')

const out = resolve(process.argv[2]), native = join(out, 'native'), url = `file://${join(out, 'page.html')}`
const work = mkdtempSync(join(tmpdir(), 'page-tests-')), counts = { passed: 0, failed: 0, skipped: 0 }
const wanted = process.argv[3] ?? '' // in the names of the tests that are run
let browser, page

function check(holds, ...words) {
  if (!holds) throw new Error(words.map(word => typeof word === 'string' ? word : JSON.stringify(word)).join(' '))
}

function checkEqual(found, wanted, what) {
  check(JSON.stringify(found) === JSON.stringify(wanted), `${what}: found`, found, 'where it is', wanted)
}

async function run(name, test) {
  if (!name.includes(wanted)) return
  const begun = performance.now()
  try {
    const counted = await test(), seconds = ((performance.now() - begun) / 1000).toFixed(1)
    counts.passed++
    console.log(`ok    ${name} (${counted ? `${counted}, ` : ''}${seconds} s)`)
  } catch (error) {
    counts.failed++
    console.log(`FAIL  ${name}\n${error.message}`)
  }
}

async function runNative(name, test) {
  if (existsSync(join(native, 'replay'))) return run(name, test)
  counts.skipped++
  console.log(`skip  ${name}: there is no library for the host`)
}

// ---- What the tests do in the page

// A cut of the session, with what the page says of it and, by the calls and lines alone, how many commands were begun and synced.
const allCuts = () => page.value(`(() => {
  const cuts = []
  for (let at = 1; at <= session.calls.length; at++)
    for (let fate = 0; fate < 4; fate++) {
      const { kept, isPart, wrong, synced } = tryCut(at, fate), line = session.lineOf[at - 1]
      cuts.push({ at, fate, kept, isPart, wrong, synced, begun: line + 1, syncs: session.lines.slice(0, line).lastIndexOf('sync') + 1 })
    }
  return cuts
})()`)

const checkCut = ({ at, fate, kept, isPart, wrong, synced, begun, syncs }) => {
  const where = `call ${at}, fate ${fate}:`
  check(wrong === null, where, wrong)
  checkEqual(synced, syncs, `${where} synced`)
  const isAllowed = kept >= syncs && kept + (isPart ? 1 : 0) <= begun
  check(isAllowed, `${where} kept ${kept}${isPart ? ' and a part' : ''} where ${syncs} were synced and ${begun} begun`)
}

const imageNow = async cut => Buffer.from(await page.value(`(() => {
  let letters = ''
  for (const byte of imageAfter(${JSON.stringify(cut)})) letters += String.fromCharCode(byte)
  return btoa(letters)
})()`), 'base64')

// The stored script on the flash that the page begins with; a fault that a test planted is gone.
const startAnew = () => page.value('flash = flash.unplanted ?? flash; act(() => { makeBase(); return runScript() })')

async function openFile(path) {
  const { root } = await page.send('DOM.getDocument'), { nodeId } = await page.send('DOM.querySelector', { nodeId: root.nodeId, selector: '#file' })
  await page.send('DOM.setFileInputFiles', { nodeId, files: [path] })
  await new Promise(done => setTimeout(done, 100))
  await page.ready()
}

async function dropFile(path) {
  const data = { items: [], files: [path], dragOperationsMask: 1 }
  for (const type of ['dragEnter', 'dragOver', 'drop']) await page.send('Input.dispatchDragEvent', { type, x: 600, y: 300, data })
  await new Promise(done => setTimeout(done, 200))
  await page.ready()
}

// ---- The tests

async function testModule() {
  const bytes = readFileSync(join(out, 'flash.wasm')), imports = await page.value(
    'WebAssembly.Module.imports(new WebAssembly.Module(Uint8Array.from(atob(MODULE), letter => letter.charCodeAt(0)))).length')
  checkEqual(imports, 0, 'imports')
  check(bytes.length <= 380000, 'the module has', bytes.length, 'bytes')
  check(gzipSync(bytes, { level: 9 }).length <= 132000, 'by gzip', gzipSync(bytes).length)
}

async function testWords() {
  const words = await page.value('document.body.textContent.replace(/\\s+/g, " ")')
  check(words.includes('the library behind flash_fs.h'), 'the page does not say what runs')
  check(words.includes('The way from there to WebAssembly is not covered by a proof'), 'the page does not say what is not proved')
  const source = readFileSync(join(out, 'page.html'), 'utf8').replace(/MODULE = "[^"]*"/, '')
  check(!/src=|href="http|fetch\(|import\(/.test(source), 'the page asks for another file')
}

async function testStoredScript() {
  await startAnew()
  checkEqual(await page.value('session.calls.length'), SCRIPT_CALLS, 'T')
  const cuts = await allCuts()
  checkEqual(cuts.length, 4 * SCRIPT_CALLS, 'cuts')
  cuts.forEach(checkCut)
  for (const { at, fate, kept, isPart } of cuts)
    check(!isPart && keptByHand(at, fate).includes(kept), `call ${at}, fate ${fate}: kept`, { kept, isPart }, 'where it is', keptByHand(at, fate))
}

// Commands that change nothing are kept only if they were begun: the tree after the first sync is that after the two behind it too.
async function testBegun() {
  await startAnew()
  await page.value('act(fresh)')
  for (const line of ['mkdir /x', 'sync', 'sync', 'sync', 'mkdir /y', 'sync']) await page.value(`act(() => type('${line}'))`)
  const cuts = await allCuts(), lineOf = await page.value('session.lineOf'), lastOf = line => lineOf.lastIndexOf(line) + 1
  cuts.forEach(checkCut)
  const keptAt = at => cuts.find(cut => cut.at === at && cut.fate === 1).kept
  checkEqual([keptAt(lastOf(1)), keptAt(lastOf(1) + 1), keptAt(lastOf(5))], [2, 4, 6], 'kept')
}

// Each bar of the strip is of the colour of what is right.
async function testStrip() {
  await startAnew()
  await page.value('act(pullAtAll)')
  const { tried, wrong, said, seconds } = await page.value(`({ tried: view.results.length, wrong: view.results.filter(result => result.wrong).length,
    said: $('result').textContent, seconds: +$('result').textContent.match(/([\\d.]+) s\\.$/)[1] })`)
  checkEqual({ tried, wrong }, { tried: 4 * SCRIPT_CALLS, wrong: 0 }, 'the strip')
  check(said.includes('Each mount showed the tree after some first part of the commands, at least the synced ones'), said)
  check(await redOnStrip() < 60, 'there is red beside the handle')
  return `${tried} cuts in ${seconds} s`
}

// How many points of the strip are red, below the calls and without the line of the handle.
const redOnStrip = () => page.value(`(() => {
  const { width, height } = $('strip'), points = $('strip').getContext('2d').getImageData(0, 0, width, height).data
  const handle = plot.x(view.call) + plot.step / 2
  let red = 0
  for (let i = 4 * width * STRIP_TOP; i < points.length; i += 4)
    if (Math.abs(i / 4 % width - handle) > 9 && points[i] > 150 && points[i + 1] < 100 && points[i + 2] < 90) red++
  return red
})()`)

// Sessions of drawn lines, each call with each fate; a line that returns an error is not of the session.
const drawSession = seed => page.value(`(() => {
  let state = ${seed}
  const drawn = below => { state = (Math.imul(state, 1103515245) + 12345) >>> 0; return (state >>> 8) % below }
  const one = names => names[drawn(names.length)]
  const directory = () => one(['/a', '/b', '/a/c', '/log', '/etc'])
  const file = () => one(['/x', '/a/y', '/b/z', '/a/c/w', '/boots', '/log/sunday', '/etc/rate'])
  const lines = [() => 'mkdir ' + directory(), () => 'write ' + file() + ' ' + (100 + drawn(6000)),
    () => 'append ' + file() + ' ' + (100 + drawn(3000)), () => 'mv ' + file() + ' ' + file(),
    () => 'mv ' + directory() + ' ' + directory(), () => 'ln ' + file() + ' ' + file(), () => 'rm ' + file(),
    () => 'rmdir ' + directory(), () => 'truncate ' + file() + ' ' + drawn(6000), () => drawn(3) ? 'sync' : 'fail', () => 'sync']
  makeBase()
  begin()
  for (let tries = 0; tries < 18; tries++) add(lines[one([0, 0, 1, 1, 1, 1, 1, 2, 2, 2, 3, 3, 4, 5, 6, 7, 8, 9, 10, 10])]())
  plan()
  const kinds = session.calls.reduce((counts, call) => { counts[kindOf(call)]++; return counts }, [0, 0, 0, 0, 0, 0])
  return { lines: session.lines, kinds }
})()`)

async function testDrawnSessions() {
  await startAnew()
  const total = { cuts: 0, erases: 0, marks: 0 }
  for (let seed = 1; seed <= 16; seed++) {
    const { lines, kinds } = await drawSession(seed * 7919), cuts = await allCuts()
    try { cuts.forEach(checkCut) } catch (error) { throw new Error(`seed ${seed}, ${lines.join('; ')}\n${error.message}`) }
    total.cuts += cuts.length
    total.erases += kinds[4]
    total.marks += kinds[5]
  }
  check(total.cuts > 1000 && total.erases > 10 && total.marks > 0, 'the sessions do too little:', total)
  return `${total.cuts} cuts, ${total.erases} erases, ${total.marks} marks`
}

// What a fate leaves of a page that was to be programmed, by flash_fs.h: erased, written or uncorrectable; and no fate is taken that no device has.
async function testFates() {
  await startAnew()
  const call = await page.value('session.calls.findIndex(call => kindOf(call) === PROGRAM) + 1')
  for (const [fate, kind, word] of [[0, 0, 'erased'], [1, 1, 'new'], [2, 2, 'uncorrectable']]) {
    await page.value(`choose(${call}); $('fates').children[${fate}].click()`)
    checkEqual(await page.value(`$('fates').children[${fate}].textContent`), word, 'the word of a fate')
    const image = readImage(await imageNow({ at: call, fate })), place = await page.value(`placeOf(session.calls[${call - 1}])`)
    checkEqual(image.pages[place].kind, kind, `what fate ${word} leaves`)
  }
  checkEqual(await page.value(`$('fates').children.length`), 4, 'fates that can be chosen')
  checkEqual(await page.value('[flash.fates(), flash.cut(TRY, 1, 4), tryCut(1, 4) === null]'), [4, -22, true], 'a fifth fate')
  const other = await openPage(browser, `${url}#script=mkdir%20/a&line=sync&call=2&fate=4`)
  check((await other.value(`$('verdict').textContent`)).includes('The device has no fate 4'), 'the address with a fifth fate was taken')
  await other.close()
}

// The cells that are drawn in the tree are the pages that the tree is made of by docs/FORMATS.md, at each of some cuts, and so are the names.
async function testCells() {
  for (const seed of [0, 5, 11]) {
    await (seed === 0 ? startAnew() : drawSession(seed))
    const calls = await page.value('session.calls.length')
    for (let at = 1; at <= calls; at += 7) {
      const found = await page.value(`(() => {
        const cut = tryCut(${at}, ${at % 4}), live = [...cut.picture.cells.keys()].filter(page => cut.picture.cells[page] === LIVE)
        return { live, names: cut.tree.slice(1).map(node => node.kind === DIRECTORY ? node.path + '/' : node.path + ' ' + node.size).sort() }
      })()`)
      const wanted = treeOf(await imageNow({ at, fate: at % 4 }))
      checkEqual(found, { live: wanted.pages, names: wanted.names }, `seed ${seed}, call ${at}`)
    }
  }
}

// After each cut a change of the flash by hand, before the mount: a page is lost, and its group with it; a byte of a file is another, until
// the script has committed another file in its place; all pages are lost.
async function testPlantedFaults() {
  const place = chunk => `pagesOf(session.before.picture, session.before.tree.find(node => node.path === '/etc/rate').object)[${chunk}].page`
  for (const [change, words, least] of [
    [`memoryAt(real.kinds(chip), size.pages)[${place(0)}] = 2`, 'The mount failed', 40],
    [`memoryAt(real.data(chip), size.pages * size.pageBytes)[${place(1)} * size.pageBytes] ^= 1`, 'The tree is that after no first part', 40],
    ['memoryAt(real.kinds(chip), size.pages).fill(2)', 'The mount failed', 4 * SCRIPT_CALLS]]) {
    await startAnew()
    await page.value(`(real => { flash = { ...real, power_up: chip => { real.power_up(chip); ${change} }, unplanted: real } })(flash)`)
    await page.value('act(pullAtAll)')
    const { wrong, said } = await page.value(`({ wrong: view.results.filter(result => result.wrong).length, said: $('result').textContent })`)
    check(wrong >= least && said.includes(`went wrong: ${words}`) && await redOnStrip() > 500, 'a planted fault does not turn the strip red:', { wrong, said })
    await page.value('choose(1)')
    const isSaid = `$('verdict').textContent.includes('${words}') && $('verdict').firstChild.classList.contains('wrong')`
    check(await page.value(isSaid), 'the verdict of a planted fault')
  }
}

// Bad blocks, by any byte but 0, and lost pages, by any kind above 1, are drawn so.
async function testBadBlocks() {
  await startAnew()
  const image = await imageNow(null), kindAt = place => 32 + 16 + place * (1 + 48 + 512)
  image[32 + 3] = 0xff
  image[32 + 14] = 1
  image[kindAt(32 * 15 + 4)] = 9
  writeFileSync(join(work, 'bad.img'), image)
  await dropFile(join(work, 'bad.img'))
  checkEqual(await page.value('[...view.picture.marks]'), [0, 0, 0, 1, 0, 0, 0, 0, 0, 0, 0, 1, 0, 0, 1, 0], 'marks')
  checkEqual(await page.value('view.picture.cells[32 * 15 + 4]'), 2, 'the kind of a lost page')
  check((await page.value(`$('cells').getAttribute('aria-label')`)).endsWith('Bad blocks: 3, 11, 14.'), 'the text of the chip')
  const points = await page.value(`[3, 11, 14, 13].map(block => {
    const [x, y] = cellAt(block, 7)
    return [...$('cells').getContext('2d').getImageData(x + 1, y + 1, 1, 1).data].slice(0, 3)
  })`)
  checkEqual(points.map(point => point.join()), ['91,63,69', '91,63,69', '91,63,69', '52,58,66'], 'the colours of three bad blocks and a good one')
}

async function testRefusedImages() {
  await startAnew()
  const image = await imageNow(null), oddSizes = Buffer.concat([image.subarray(0, 8), Buffer.from([1]), image.subarray(9)])
  const tries = { 'does not begin': Buffer.from('no image'), 'sizes that no device': oddSizes, 'where its sizes want': image.subarray(0, -1) }
  for (const [words, bytes] of Object.entries(tries)) {
    writeFileSync(join(work, 'none.img'), bytes)
    await openFile(join(work, 'none.img'))
    check((await page.value(`$('verdict').textContent`)).includes(words), 'an image is taken that is none:', words)
  }
}

const listed = image => execFileSync(join(native, 'list'), [image], { encoding: 'utf8' }).trimEnd().split('\n')
// The tree of the page in the form of `list`: size and moment of a file, or the moment of a directory, and the path.
const listedByPage = () => page.value(`view.shown.tree.slice(1).map(node => (node.kind === DIRECTORY ? '' : String(node.size)).padStart(12) + ' ' +
  String(node.moment).padStart(8) + ' ' + node.path + (node.kind === DIRECTORY ? '/' : ''))`)

// The image that the page saves is shown by the driver and the library in C; that of C by the page, which saves the same bytes again.
async function testImages() {
  await startAnew()
  await page.send('Browser.setDownloadBehavior', { behavior: 'allow', downloadPath: work })
  const saved = join(work, 'flash.img'), save = async () => {
    rmSync(saved, { force: true })
    await page.value(`$('save').click()`)
    for (let tries = 0; tries < 100 && !existsSync(saved); tries++) await new Promise(done => setTimeout(done, 50))
  }
  await save()
  checkEqual(listed(saved), await listedByPage(), 'the image of the page, shown by C')
  const made = join(work, 'made.img')
  execFileSync(join(native, 'make_image'), [made])
  await openFile(made)
  checkEqual(await listedByPage(), listed(made), 'the image of C, shown by the page')
  await page.value(`act(() => type('show /logs/old/29'))`)
  const [pages, content] = await page.value(`(() => {
    const { bytes } = view.shown.tree.find(node => node.path === '/logs/old/29')
    return [view.marked.size, [bytes.length, bytes[0], bytes[86999]]]
  })()`)
  checkEqual(pages, 1 + Math.ceil(87000 / 2048), 'pages of a file')
  checkEqual(content, [87000, 0, (86999 * 31 + Math.floor(86999 / 509)) % 256], 'bytes of a file')
  await save()
  check(readFileSync(saved).equals(readFileSync(made)), 'the image is not what it was')
}

// The answer of `show`, and the tag of a step, beside the image.
async function testSteps() {
  await startAnew()
  await page.value(`choose(1)`)
  checkEqual(await page.value(`[view.call, $('back').disabled, $('forward').disabled]`), [1, true, false], 'the first call')
  const program = await page.value('session.calls.findIndex(call => kindOf(call) === PROGRAM) + 1')
  for (let call = 1; call < program; call++) await page.value(`$('forward').click()`)
  const place = await page.value(`placeOf(session.calls[${program - 1}])`), tag = readImage(await imageNow({ at: program, fate: 1 })).pages[place]
  const words = tag => `object ${tag.object}, chunk ${tag.chunk}, version ${tag.version}, group ${tag.group}, seq ${tag.seq}`
  checkEqual(await page.value(`[view.call, $('tag').textContent]`), [program, `To be written: ${words(tag)}.`], 'the step to the first program')
  await page.value(`$('fates').children[1].click()`)
  const inside = await page.value(`(() => {
    const box = $('cells').getBoundingClientRect(), [x, y] = cellAt(blockAt(${place}), pageIn(${place}))
    return { x: box.x + x + 3, y: box.y + y + 3 }
  })()`)
  await page.send('Input.dispatchMouseEvent', { type: 'mouseMoved', ...inside })
  const about = await page.value(`$('about').textContent`)
  check(about.endsWith(words(tag)), 'the tag under the pointer:', about, 'where it is', words(tag))
}

// What the plug shows when it is pulled slowly is what a mount shows at once.
async function testPull() {
  await startAnew()
  await page.value('view.fate = 1; choose(25)')
  const seen = `[$('verdict').textContent, view.shown.key, view.power, [...document.querySelectorAll('#lines .kept')].length]`, wanted = await page.value(seen)
  checkEqual(wanted.slice(2), [true, 7], 'power, and the lines that are kept')
  await page.value('act(pull)')
  checkEqual(await page.value(seen), wanted, 'after the plug was pulled')
}

async function testCosts() {
  await startAnew()
  await page.value('settle(session.now)')
  for (const [id, number] of Object.entries(SCRIPT_COSTS)) checkEqual(await page.value(`$('${id}').textContent`), `${number}`, id)
}

// An address is what its page shows: script, call and fate.
async function testAddress() {
  await startAnew()
  await page.value(`act(fresh)`)
  for (const line of ['mkdir /a&b', 'write /a&b/c 50% + #1', 'sync']) await page.value(`act(() => type(${JSON.stringify(line)}))`)
  await page.value(`view.fate = 1; choose(4)`)
  const address = await page.value('location.href'), other = await openPage(browser, address)
  const seen = '[session.lines, view.call, view.fate, $("verdict").textContent, view.shown.tree.map(node => node.path)]'
  checkEqual(await other.value(seen), await page.value(seen), 'a page that was opened at an address')
  checkEqual(await other.value('session.lines'), ['mkdir /a&b', 'write /a&b/c 50% + #1', 'sync'], 'the lines of an address')
  await other.value(`location.hash = '#script=mkdir%20/q&call=1&fate=0'`)
  await new Promise(done => setTimeout(done, 100))
  await other.ready()
  checkEqual(await other.value('[session.lines, view.fate]'), [['mkdir /q'], 0], 'another address in the same page')
  await other.close()
}

async function testKeyboard() {
  await startAnew()
  await page.send('Accessibility.enable')
  const { nodes } = await page.send('Accessibility.getFullAXTree')
  const isFocusable = node => node.properties?.some(({ name, value }) => name === 'focusable' && value.value)
  const controls = nodes.filter(node => !node.ignored && isFocusable(node) && node.role.value !== 'RootWebArea')
  const nameless = controls.filter(node => !node.name?.value).map(node => node.role.value)
  check(controls.length >= 15 && nameless.length === 0, 'a control has no name:', nameless)
  await page.value(`choose(5); $('strip').focus()`)
  const key = async name => { for (const type of ['keyDown', 'keyUp']) await page.send('Input.dispatchKeyEvent', { type, key: name, code: name }) }
  await key('ArrowRight')
  checkEqual(await page.value('view.call'), 6, 'the call after an arrow')
  check((await page.value(`$('strip').getAttribute('aria-valuetext')`)).startsWith('Call 6 of '), 'the text of the strip')
  await page.value(`$('cells').focus()`)
  await key('ArrowDown')
  check((await page.value(`$('about').textContent`)).startsWith('Block 0, page 0: '), 'the text of a page')
}

// The same commands, replies, calls and flash as on the host: docs/FORMATS.md's bytes of it, and what lies in pages that are not written.
async function testReplay() {
  const lines = drawnTrace(10000, 20261127)
  const sums = await page.value(`(() => { ${replay}; return replay(${JSON.stringify(lines)}) })()`)
  const bytes = execFileSync(join(native, 'replay'), { input: lines.join('\n') + '\n', maxBuffer: 2 ** 30 }), wanted = []
  for (let at = 0; at < bytes.length;) {
    const size = bytes.readUInt32LE(at)
    wanted.push(createHash('sha256').update(bytes.subarray(at + 4, at + 4 + size)).digest('hex'))
    at += 4 + size
  }
  checkEqual(sums.length, 100, 'parts')
  checkEqual(sums, wanted, 'the parts of the trace')
  checkEqual(new Set(sums).size, 100, 'parts that differ')
}

// Pictures of both themes at both widths, for whoever looks at them, and that nothing is wider than the window.
async function testPictures() {
  mkdirSync(join(out, 'pictures'), { recursive: true })
  for (const theme of ['light', 'dark'])
    for (const [width, height] of [[1400, 900], [390, 844]]) {
      const seen = await openPage(browser, url, { width, height, theme })
      await seen.value('act(pullAtAll)')
      checkEqual(await seen.value('document.documentElement.dataset.theme'), theme, 'theme')
      check(await seen.value('document.documentElement.scrollWidth <= innerWidth'), 'the page is wider than', width)
      const { data } = await seen.send('Page.captureScreenshot', { captureBeyondViewport: width < 600 })
      writeFileSync(join(out, 'pictures', `${theme}-${width}.png`), Buffer.from(data, 'base64'))
      await seen.close()
    }
}

async function main() {
  browser = start(process.env.CHROMIUM ?? 'chromium')
  page = await openPage(browser, url)
  await run('the module has no import, and its size', testModule)
  await run('what the page says of itself', testWords)
  await run('the stored script, by hand', testStoredScript)
  await run('no more is kept than was begun', testBegun)
  await run('the strip of the stored script is green', testStrip)
  await run('fates', testFates)
  await run('cells in the tree, by the format', testCells)
  await run('planted faults turn the strip red', testPlantedFaults)
  await run('drawn sessions, each call with each fate', testDrawnSessions)
  await run('an image with bad blocks', testBadBlocks)
  await run('what is no image', testRefusedImages)
  await runNative('images, with C', testImages)
  await run('steps and tags', testSteps)
  await run('the plug is pulled', testPull)
  await run('what the flash did', testCosts)
  await run('a link', testAddress)
  await run('keyboard and names', testKeyboard)
  await runNative('10,000 commands with cuts, as on the host', testReplay)
  await run('pictures', testPictures)
  await run('no page threw', async () => checkEqual(browser.thrown, [], 'thrown'))
  await browser.stop()
  rmSync(work, { recursive: true, force: true })
  console.log(`${counts.passed} passed, ${counts.failed} failed, ${counts.skipped} skipped`)
  process.exitCode = counts.failed > 0 ? 1 : 0
}

main().catch(error => { console.error(error); process.exit(2) })
