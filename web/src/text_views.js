// What is said in words: the lines of the script, the tree, the verdict, the call in which power goes, what was paid.

const $ = id => document.getElementById(id)
const plural = (count, word) => `${count.toLocaleString('en')} ${word}${count === 1 ? '' : 's'}`

function element(tag, className, ...content) {
  const made = document.createElement(tag)
  if (className) made.className = className
  made.append(...content)
  return made
}

// What became of a line: words for a reader, and a sign.
const STATES = { running: ['', 'runs now'], kept: ['✓', 'kept'], part: ['½', 'kept in part'], gone: ['', 'gone'], plain: ['', ''] }

function stateOf(line) {
  const { cut, running } = view
  if (running >= 0) return line === running ? 'running' : 'plain'
  if (!cut || cut.wrong) return 'plain'
  return line < cut.kept ? 'kept' : line === cut.kept && cut.isPart ? 'part' : 'gone'
}

function answerItem({ asked, said, isError }) {
  return element('li', isError ? 'answer error' : 'answer', element('span', 'number', '?'), element('span', 'text', `${asked}\n${said}`))
}

function lineItem(line, i) {
  const state = stateOf(i), [sign, words] = STATES[state], mark = element('span', 'mark', sign)
  const spoken = element('span', 'spoken', words)
  return element('li', `${state} ${isSync(line) ? 'sync' : ''}`, element('span', 'number', `${i + 1}`), element('span', 'text', line), mark, spoken)
}

function showLines() {
  const answersAfter = count => view.answers.filter(answer => answer.after === count).map(answerItem)
  $('lines').replaceChildren(...answersAfter(0), ...session.lines.flatMap((line, i) => [lineItem(line, i), ...answersAfter(i + 1)]))
  const seen = $('lines').querySelector('.running') ?? (view.cut ? null : $('lines').lastElementChild)
  if (seen) $('lines').scrollTop = seen.offsetTop - $('lines').clientHeight / 2
}

function nodeItem(node) {
  const isDirectory = node.kind === DIRECTORY, name = node.path === '/' ? '/' : node.path.split('/').at(-1) + (isDirectory ? '/' : '')
  const short = node.bytes && node.size > 0 && node.size < 60 ? text.decode(node.bytes).trim() : ''
  const item = element('li', '', element('span', isDirectory ? 'name directory' : 'name', '  '.repeat(node.depth) + name),
    element('span', 'text', short), element('span', 'size', isDirectory ? '' : node.size.toLocaleString('en')))
  const mark = isMarked => {
    view.marked = new Set(isMarked ? pagesOf(view.picture, node.object).map(({ page }) => page) : [])
    draw()
  }
  item.onmouseenter = () => mark(true)
  item.onmouseleave = () => mark(false)
  return item
}

function showTree() {
  $('names').replaceChildren(...view.shown.tree.map(nodeItem))
}

const MOUNTED = { head: 'Mounted', text: 'Type a command, or run the script.' }

function verdictOfSession() {
  const { lines, onChip, before } = session, count = lines.length
  if (before.code < 0) return { head: 'No mount', text: `The mount failed: ${errorText(before.code)}.`, isWrong: true }
  if (count === 0) return MOUNTED
  const waiting = count - onChip.kept, head = `${onChip.kept} of ${plural(count, 'command')} on the chip`
  if (waiting === 0) return { head, text: 'A mount shows all of them.' }
  return { head, text: `The last ${waiting === 1 ? 'one waits' : `${waiting} wait`} in memory for a sync.` }
}

function verdictOfCut(cut) {
  if (cut.wrong) return { head: 'Wrong', text: `${cut.wrong} The theorem does not allow it.`, isWrong: true }
  const begun = Math.min(cut.ended + 1, session.lines.length), part = cut.isPart ? `, and a part of command ${cut.kept + 1}` : ''
  return { head: `Kept ${cut.kept} of ${plural(session.lines.length, 'command')}`,
    text: `Synced: ${cut.synced}. Begun: ${begun}. Kept: ${cut.kept}${part}. Power went in command ${begun}.` }
}

function showVerdict() {
  const { head, text, isWrong } = view.saying ?? (view.cut ? verdictOfCut(view.cut) : verdictOfSession())
  $('whose').textContent = view.saying ? '' : view.cut ? 'after the cut' : session.lines.length ? 'if the plug were pulled now' : ''
  $('verdict').replaceChildren(element('div', isWrong ? 'big wrong' : 'big', head), element('p', '', text))
}

function describeCall(call) {
  const block = `block ${blockOf(call)}`, page = `${block}, page ${pageOf(call)}`
  const words = [`a read of the mark of ${block}`, `a read of the tag of ${page}`, `a read of ${page}`, `a program of ${page}`,
    `an erase of ${block}`, `a mark on ${block}`]
  return words[kindOf(call)]
}

// What a call that is cut may leave, a word a fate: enum ram_nand_fate. A call that changes nothing leaves nothing else.
const FATE_WORDS = {
  [PROGRAM]: ['erased', 'new', 'uncorrectable', 'one of these'], [ERASE]: ['old', 'erased', 'uncorrectable', 'mixed'],
  [MARK]: ['unmarked', 'marked', 'unmarked', 'either'],
}

function showFates(call) {
  const words = FATE_WORDS[kindOf(call)] ?? []
  $('fates').hidden = words.length === 0
  $('fates').replaceChildren(...words.map((word, fate) => {
    const button = element('button', '', word)
    button.type = 'button'
    button.setAttribute('aria-pressed', fate === view.fate)
    button.onclick = () => { view.fate = fate; look() }
    return button
  }))
}

function showCall() {
  const count = session.calls.length, call = session.calls[view.call - 1], strip = $('strip')
  const values = { min: Math.min(1, count), max: count, now: Math.min(view.call, count) }
  for (const [name, value] of Object.entries(values)) strip.setAttribute(`aria-value${name}`, value)
  $('fates').hidden = true
  if (count === 0) {
    $('when').textContent = 'The commands so far asked nothing of the chip.'
    for (const id of ['call', 'what', 'tag']) $(id).textContent = ''
    return strip.setAttribute('aria-valuetext', $('when').textContent)
  }
  const where = `${describeCall(call)}, in command ${begunBy(view.call)}.`
  $('when').textContent = 'Power goes at device call '
  $('call').textContent = view.call
  $('what').textContent = ` of ${count.toLocaleString('en')}, ${where} ${changes(call) ? 'It is left' : 'It touches nothing.'}`
  const tag = tagOfCall(view.call)
  $('tag').textContent = tag ? `${changes(call) ? 'To be written' : 'The page'}: ${describeTag(tag)}.` : ''
  showFates(call)
  const cut = view.cut ? ` ${$('verdict').textContent}` : ''
  strip.setAttribute('aria-valuetext', `Call ${view.call} of ${count}, ${where}${cut}`)
}

function showCosts() {
  const count = view.cut ? view.cut.at : session.calls.length, { counts, time, amplification } = costsOf(count)
  $('until').textContent = view.cut ? `of the first ${plural(count, 'call')}` : 'of the session'
  $('programs').textContent = counts[PROGRAM].toLocaleString('en')
  $('erases').textContent = counts[ERASE].toLocaleString('en')
  $('reads').textContent = (counts[PAGE_READ] + counts[TAG_READ] + counts[MARK_READ]).toLocaleString('en')
  $('amplification').textContent = amplification === null ? '–' : amplification.toFixed(2)
  $('time').textContent = `${(time / 1000).toFixed(1)} ms`
}

function showButtons() {
  const isIdle = !busy, count = session.calls.length
  for (const id of ['pull', 'all']) $(id).disabled = !isIdle || count === 0
  $('back').disabled = !isIdle || count === 0 || view.call <= 1
  $('forward').disabled = !isIdle || count === 0 || view.call >= count
}

const HINT = 'Between the two lines is what the theorem allows: at least the commands that were synced, at most those that were begun. ' +
  'Drag the red plug along the calls, or try them all.'

function showResult(isDone, seconds) {
  const count = view.results.length.toLocaleString('en'), wrong = view.results.filter(result => result.wrong)
  const power = `Power went ${count} times, at each of ${plural(session.calls.length, 'call')} with each of ${flash.fates()} fates. `
  const said = wrong.length > 0 ? `${plural(wrong.length, 'cut')} went wrong: ${wrong[0].wrong}`
    : 'Each mount showed the tree after some first part of the commands, at least the synced ones, and the volume went on.'
  $('result').replaceChildren(power, element('b', wrong.length > 0 ? 'wrong' : '', said), isDone ? ` ${seconds.toFixed(1)} s.` : '')
}

function draw() {
  drawChip(view)
  drawStrip(view)
}

function show() {
  showLines()
  showTree()
  showVerdict()
  showCall()
  showCosts()
  showButtons()
  draw()
}
