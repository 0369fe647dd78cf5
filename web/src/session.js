// A session: the commands since the mount of the base. Here it is run, cut, and what a mount shows is looked for among the trees
// after its calls of flash_fs.h.

const FIRST_MOMENT = 100
const BEFORE_ALL = ['mkdir /etc', 'write /etc/rate speed 9600', 'mkdir /log', 'write /log/sunday 3000', 'write /log/saturday 6000',
  'write /boots 41', 'sync', 'append /log/sunday 2000', 'write /boots 42', 'sync']
const SCRIPT = ['write /log/monday 1800', 'write /etc/rate.new speed 115200', 'mv /etc/rate.new /etc/rate', 'sync',
  'append /log/monday 1400', 'rm /log/saturday', 'sync', 'mkdir /log/old', 'mv /log/sunday /log/old/sunday', 'append /log/monday 2300',
  'sync', 'write /boots 43']

let session

// The flash that the page begins with: a block that the maker marked, and some use.
function makeBase() {
  makeFlashes(512, 32, 16)
  marksOf(BASE)[11] = 1
  flash.format(BASE, 2)
  flash.mount(BASE)
  BEFORE_ALL.forEach((line, i) => doLine(BASE, line, i + 1))
  for (let i = 0; i < 9; i++) [`write /boots ${33 + i}`, 'write /log/saturday 5000', 'sync'].forEach(line => doLine(BASE, line, 20 + i))
  flash.unmount(BASE)
}

function begin() {
  session = { lines: [], before: mountedCopy(BASE) }
  return plan()
}

// Runs the whole session from the mount on: which calls of the device each line makes, how many bytes it has written by its end, and
// the tree after each call of flash_fs.h. Returns the code of the first line that fails; the session is of use only if none does.
function plan() {
  const code = planCalls()
  if (code < 0) return code
  planTrees()
  session.now = mountedCopy(NOW)
  session.onChip = firstPart(session.now.key, 0, session.steps.length - 1)
  return 0
}

function planCalls() {
  const { lines } = session
  Object.assign(session, { lineOf: [], written: [] })
  let written = 0, code = 0
  flash.copy(NOW, BASE)
  flash.mount(NOW)
  flash.begin_calls()
  for (let i = 0; i < lines.length && code >= 0; i++) {
    code = doLine(NOW, lines[i], i + FIRST_MOMENT, (_, bytes) => { written += bytes })
    session.lineOf.push(...new Array(flash.call_count() - session.lineOf.length).fill(i))
    session.written.push(written)
  }
  session.calls = callsMade()
  return flash.call_count() > flash.most_calls() ? TOO_LONG : code
}

function planTrees() {
  const { lines } = session
  flash.copy(TRY, BASE)
  flash.mount(TRY)
  session.steps = [{ line: -1, isLast: true, key: keyOf(walk(TRY)) }]
  lines.forEach((line, i) => {
    doLine(TRY, line, i + FIRST_MOMENT, () => session.steps.push({ line: i, isLast: false, key: keyOf(walk(TRY)) }))
    session.steps.at(-1).isLast = true
  })
  flash.abandon(TRY)
}

// The most commands after which the tree was this one, among the steps from one to another; below 0 if there are none. `isPart`: and a
// part of the next.
function firstPart(key, from, to) {
  const fitting = session.steps.slice(from, to + 1).filter(step => step.key === key)
  const whole = fitting.findLast(step => step.isLast), part = fitting.at(-1)
  if (whole) return { kept: whole.line + 1, isPart: false }
  return part ? { kept: part.line, isPart: true } : { kept: -1, isPart: false }
}

// Runs the session on a copy with power that goes in a call, and leaves the copy without power: in which line that was, how many lines
// were synced, and the steps that were synced and begun. Null for a fate that no device has.
function runToCut(at, fate) {
  const { lines } = session, run = { ended: lines.length, synced: 0, syncedSteps: 0, begunSteps: 0 }
  flash.copy(TRY, BASE)
  flash.mount(TRY)
  if (flash.cut(TRY, at, fate) < 0) return null
  for (let i = 0; i < lines.length && run.ended === lines.length; i++) {
    const code = doLine(TRY, lines[i], i + FIRST_MOMENT, () => run.begunSteps++)
    if (flash.is_gone(TRY)) run.ended = i
    else if (isSync(lines[i]) && code === 0) Object.assign(run, { synced: i + 1, syncedSteps: run.begunSteps })
  }
  flash.abandon(TRY)
  return { ...run, isMisused: flash.is_misused(TRY) !== 0 }
}

// Whether a mounted flash takes one more command, and keeps it.
function goesOn() {
  put('/later')
  return flash.mkdir(TRY, 1) === 0 && flash.unmount(TRY) === 0
}

function whatIsWrong(run, found, part) {
  if (found.code < 0) return `The mount failed: ${errorText(found.code)}.`
  if (part.kept < 0) return 'The tree is that after no first part of the commands.'
  if (run.isMisused) return 'The library broke a promise to the driver.'
  return goesOn() ? null : 'The volume did not take another command.'
}

// Cuts the session in a call, mounts, and says what that shows. `wrong` says why it is not what the theorem allows; null: it is.
function tryCut(at, fate) {
  const run = runToCut(at, fate)
  if (run === null) return null
  flash.power_up(TRY)
  const found = mounted(TRY), part = firstPart(found.key, run.syncedSteps, run.begunSteps)
  const wrong = whatIsWrong(run, found, part)
  flash.abandon(TRY)
  return { at, fate, ...run, ...part, wrong, ...found }
}

// The image of the flash after a cut, before the next mount; without a cut, of what the session has left on the chip.
function imageAfter(cut) {
  if (cut === null) return imageOf(NOW)
  runToCut(cut.at, cut.fate)
  return imageOf(TRY)
}

// The tag of the page of a call, as the call leaves it; null where there is none.
function tagOfCall(at) {
  const call = session.calls[at - 1], AFTER = 1
  if (kindOf(call) !== PROGRAM && kindOf(call) !== PAGE_READ && kindOf(call) !== TAG_READ) return null
  runToCut(at, AFTER)
  return kindsOf(TRY)[placeOf(call)] === LIVE ? tagAt(tagsOf(TRY), placeOf(call)) : null
}
