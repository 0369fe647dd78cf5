// What is done: a line is typed, the script runs, the plug is pulled. One act at a time.

let view, busy = false, turn = 0

function freshView() {
  const none = () => new Float32Array(size.pages)
  return {
    call: 1, fate: view?.fate ?? 2, cut: null, running: -1, shown: null, picture: null, power: true, touched: null, pointer: null,
    saying: null, heat: none(), glow: none(), marked: new Set(), results: [], answers: [],
  }
}

async function act(work) {
  if (busy) return
  busy = true
  try { await work() } finally { busy = false }
  showButtons()
}

const rest = milliseconds => new Promise(done => setTimeout(done, milliseconds))
const frameDrawn = () => new Promise(requestAnimationFrame)

function seen(call) {
  const place = placeOf(call)
  if (kindOf(call) === PROGRAM) [view.heat[place], view.picture.cells[place]] = [1.4, STALE]
  if (kindOf(call) === PAGE_READ || kindOf(call) === TAG_READ) view.glow[place] = 1
  if (kindOf(call) === ERASE) {
    view.heat.fill(0.7, place, place + size.blockPages)
    view.picture.cells.fill(ERASED, place, place + size.blockPages)
  }
  if (kindOf(call) === MARK) view.picture.marks[blockOf(call)] = 1
}

function fade(by) {
  for (let page = 0; page < size.pages; page++) {
    view.heat[page] *= by
    view.glow[page] *= by
  }
}

// Lets calls of the device be seen on the chip. False where another act began meanwhile.
async function play(calls, milliseconds, each = () => {}) {
  const mine = ++turn, begun = performance.now(), lasts = matchMedia('(prefers-reduced-motion: reduce)').matches ? 0 : milliseconds
  for (let done = 0, before = begun, time = begun; done < calls.length || time - begun < lasts; before = time) {
    await frameDrawn()
    if (mine !== turn) return false
    time = performance.now()
    fade(Math.exp(-(time - before) / 140))
    const wanted = lasts === 0 ? calls.length : Math.min(calls.length, Math.ceil((time - begun) / lasts * calls.length))
    calls.slice(done, wanted).forEach((call, i) => { seen(call); each(done + i) })
    done = wanted
    draw()
  }
  view.heat.fill(0)
  view.glow.fill(0)
  return true
}

// What a call leaves half done when it is cut: its first page, and how many.
function touchedBy(call) {
  if (!changes(call)) return null
  const isPage = kindOf(call) === PROGRAM
  return { page: isPage ? placeOf(call) : blockOf(call) * size.blockPages, pages: isPage ? 1 : size.blockPages }
}

// Shows what was found: after a cut, or now.
function settle(found, cut = null) {
  Object.assign(view, { cut, shown: found, picture: copyOf(found.picture), running: -1, saying: null, power: true, marked: new Set(),
    touched: cut && touchedBy(session.calls[cut.at - 1]) })
  show()
}

function writeAddress() {
  history.replaceState(null, '', toAddress({ lines: session.lines, call: view.call, fate: view.fate }))
}

const QUESTIONS = {
  help: () => HELP,
  space: () => {
    if (flash.space(NOW) < 0) return null
    const [unit, total, free] = new BigUint64Array(buffer(24).slice().buffer)
    return `${free} of ${total} units of ${unit} bytes are free`
  },
  list: path => {
    const node = view.shown.tree.find(node => node.path === path)
    return node?.kind === DIRECTORY ? namesOf(path).join('  ') || '(nothing)' : null
  },
  read: path => {
    const node = view.shown.tree.find(node => node.path === path)
    return node?.kind === FILE ? text.decode(node.bytes).slice(0, 600) : null
  },
  show: showPages,
}

function namesOf(directory) {
  const above = directory === '/' ? '' : directory
  return view.shown.tree.map(node => node.path).filter(path => path !== '/' && path.slice(0, path.lastIndexOf('/')) === above)
}

// The pages of a file or a directory, chunk by chunk, which are marked on the chip.
function showPages(path) {
  const node = view.shown.tree.find(node => node.path === path)
  if (!node) return null
  const pages = pagesOf(view.shown.picture, node.object)
  view.marked = new Set(pages.map(({ page }) => page))
  return [`object ${node.object}, ${plural(pages.length, 'page')} in the tree`,
    ...pages.map(({ page, chunk }) => `${chunk === 0n ? 'header' : `chunk ${chunk}`}: block ${blockAt(page)}, page ${pageIn(page)}`)].join('\n')
}

function answer(asked, said, isError) {
  view.answers.push({ after: session.lines.length, asked, said, isError })
}

function ask(line, word, path) {
  const said = QUESTIONS[word](path)
  answer(line, said ?? 'there is no such file or directory in the tree that is shown', said === null)
  show()
}

function refuse(line, code) {
  plan()
  answer(line, errorText(code), true)
  settle(session.now)
}

// Adds a line to the session, and returns the error that it had; then it is not of the session.
function add(line) {
  session.lines.push(line)
  const code = session.before.code < 0 ? session.before.code : plan()
  if (code < 0) session.lines.pop()
  return code
}

async function type(typed, milliseconds = 420) {
  const line = typed.trim(), [word, path = '/'] = line.split(/\s+/)
  if (line === '') return
  if (Object.hasOwn(QUESTIONS, word)) return ask(line, word, path)
  const from = session.calls.length, picture = copyOf(session.now.picture), code = add(line)
  if (code < 0) return refuse(line, code)
  const call = Math.max(1, Math.min(view.call, session.calls.length))
  Object.assign(view, { results: [], call, cut: null, running: session.lines.length - 1, picture, touched: null })
  $('result').replaceChildren(HINT)
  show()
  if (await play(session.calls.subarray(from), session.calls.length === from ? milliseconds * 0.4 : milliseconds)) settle(session.now)
  writeAddress()
}

function fresh() {
  turn++
  begin()
  view = freshView()
  $('result').replaceChildren('')
  settle(session.now)
}

async function runScript(lines = SCRIPT, call = 0, fate = view.fate) {
  fresh()
  for (const line of lines) await type(line, isSync(line) ? 500 : 220)
  view.call = Math.max(1, Math.min(session.calls.length, call || Math.round(session.calls.length * 0.56)))
  view.fate = fate
  look()
}

// Shows at once what a cut in the chosen call leaves.
function look() {
  turn++
  if (session.calls.length === 0) return
  const cut = tryCut(view.call, view.fate)
  settle(cut, cut)
  writeAddress()
}

function say(head, text, isWrong = false) {
  view.saying = { head, text, isWrong }
  showVerdict()
}

async function pull() {
  const cut = tryCut(view.call, view.fate), calls = session.calls.subarray(0, cut.at)
  settle(session.before)
  $('names').replaceChildren()
  say('Power is on', 'The commands run on a copy of the chip.')
  const isDone = await play(calls, Math.min(2600, 500 + cut.at * 18), call => {
    if (session.lineOf[call] === view.running) return
    view.running = session.lineOf[call]
    showLines()
  })
  if (isDone) await powerGoes(cut)
  settle(cut, cut)
}

// The power is gone for a while; then a mount reads the tag of each page.
async function powerGoes(cut) {
  Object.assign(view, { power: false, running: cut.ended, touched: touchedBy(session.calls[cut.at - 1]) })
  view.picture.cells.set(cut.picture.cells.map(cell => cell === LIVE ? STALE : cell))
  say('Power is gone', `In command ${cut.ended + 1}, at call ${cut.at} of the device. What was in memory is lost.`, true)
  draw()
  await rest(1300)
  view.power = true
  say('Mounting', 'The tag of each page is read.')
  const tagRead = (_, page) => (TAG_READ << 28 | blockAt(page) << 16 | pageIn(page)) >>> 0
  await play(Array.from({ length: size.pages }, tagRead), 650)
}

// Tries each call with each fate, and shows what was found after each short while.
async function pullAtAll() {
  const mine = ++turn, count = session.calls.length, fates = flash.fates(), begun = performance.now()
  view.results = []
  for (let tried = 0; tried < count * fates && mine === turn;) {
    for (const until = performance.now() + 24; tried < count * fates && performance.now() < until; tried++) {
      const { at, fate, kept, isPart, wrong, synced, ended } = tryCut(Math.floor(tried / fates) + 1, tried % fates)
      view.results.push({ at, fate, kept, isPart, wrong, synced, ended })
    }
    showResult(tried === count * fates, (performance.now() - begun) / 1000)
    drawStrip(view)
    await frameDrawn()
  }
}

// Opens an image: its chip is the base of a new session.
async function openImage(file) {
  turn++
  try {
    readImage(new Uint8Array(await file.arrayBuffer()))
  } catch (error) {
    return say('No image', error.message, true)
  }
  fresh()
  $('result').replaceChildren(`${file.name}: ${describeChip(session.now.picture)}`)
}

function saveImage() {
  const link = element('a'), url = URL.createObjectURL(new Blob([imageAfter(view.cut)]))
  Object.assign(link, { href: url, download: 'flash.img' })
  link.click()
  setTimeout(() => URL.revokeObjectURL(url), 10000)
}

// Moves the plug to another call.
function choose(call) {
  if (busy || session.calls.length === 0) return
  view.call = Math.max(1, Math.min(session.calls.length, call))
  look()
}

function point(page) {
  view.pointer = page
  $('about').textContent = page === null ? '' : describePage(view.picture, page)
  drawChip(view)
}
