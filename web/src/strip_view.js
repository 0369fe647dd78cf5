// The calls of the session from left to right: above what each is, below how many commands were begun and synced by then, and how many
// the mount after each cut showed.

const LANES = 20, TICKS = 44, STRIP_TOP = 56
let plot

function stripPlot(width, height) {
  const calls = Math.max(1, session.calls.length), lines = Math.max(1, session.lines.length)
  const left = width < 600 ? 62 : 70, right = width - 8, bottom = height - 6, step = (right - left) / calls
  return { left, right, bottom, step, calls, x: call => left + (call - 1) * step, y: count => bottom - count * (bottom - STRIP_TOP) / lines }
}

const begunBy = call => session.lineOf[call - 1] + 1

function syncedBy(call) {
  const line = session.lines.findLastIndex((line, i) => i < session.lineOf[call - 1] && isSync(line))
  return line + 1
}

function drawStripLabels(c) {
  const middle = (STRIP_TOP + plot.bottom) / 2
  c.font = `11px ${color('--sans')}`
  c.textBaseline = 'middle'
  c.textAlign = 'right'
  c.fillStyle = color('--soft')
  const labels = [['command', LANES / 2], ['device', (LANES + TICKS) / 2 + 1], ['kept', middle], ['0', plot.y(0) - 4]]
  if (session.lines.length > 0) labels.push([session.lines.length, plot.y(session.lines.length) + 4])
  for (const [words, y] of labels) c.fillText(words, plot.left - 10, y)
}

// The runs of calls of one line: the line, its first call, and the one after its last.
function runsOfLines() {
  const runs = []
  session.lineOf.forEach((line, i) => {
    if (runs.at(-1)?.line === line) runs.at(-1).to = i + 2
    else runs.push({ line, from: i + 1, to: i + 2 })
  })
  return runs
}

function drawCommands(c, runs, running) {
  c.textAlign = 'center'
  for (const { line, from, to } of runs) {
    const x = plot.x(from), width = plot.x(to) - x, word = session.lines[line].trim().split(' ')[0]
    c.fillStyle = line === running ? color('--kept-soft') : color('--lane')
    rounded(c, x + 0.5, 2, Math.max(1, width - 1), LANES - 4, 3)
    c.fill()
    c.fillStyle = color('--ink')
    c.fillText(width > 58 ? `${line + 1} ${word}` : width > 16 ? `${line + 1}` : '', x + width / 2, LANES / 2 + 0.5)
  }
}

function drawCalls(c) {
  const fill = { [PROGRAM]: color('--program'), [ERASE]: color('--erase'), [MARK]: color('--erase') }, read = color('--look')
  session.calls.forEach((call, i) => {
    const [top, height] = changes(call) ? [LANES + 3, TICKS - LANES - 3] : [TICKS - 9, 9]
    c.fillStyle = fill[kindOf(call)] ?? read
    c.fillRect(plot.x(i + 1) + plot.step * 0.15, top, Math.max(1, plot.step * 0.7), height)
  })
}

function drawBounds(c) {
  for (const [countBy, style, dash] of [[begunBy, color('--soft'), [3, 3]], [syncedBy, color('--ink'), []]]) {
    c.strokeStyle = style
    c.lineWidth = 1.25
    c.setLineDash(dash)
    c.beginPath()
    session.calls.forEach((_, i) => {
      c.lineTo(plot.x(i + 1), plot.y(countBy(i + 1)))
      c.lineTo(plot.x(i + 2), plot.y(countBy(i + 1)))
    })
    c.stroke()
  }
  c.setLineDash([])
}

// What the theorem allows, and the names of its two bounds where there is most room for them.
function drawAllowed(c, runs) {
  c.fillStyle = color('--kept')
  c.globalAlpha = 0.1
  for (const { from, to } of runs) {
    const top = plot.y(begunBy(from))
    c.fillRect(plot.x(from), top, plot.x(to) - plot.x(from), plot.y(syncedBy(from)) - top)
  }
  c.globalAlpha = 1
  drawBounds(c)
  const roomOf = ({ from, to }) => (to - from) * Math.min(4, begunBy(from) - syncedBy(from))
  const { from } = runs.reduce((most, run) => roomOf(run) > roomOf(most) ? run : most)
  const begun = plot.y(begunBy(from)), synced = plot.y(syncedBy(from))
  c.textAlign = 'left'
  c.fillStyle = color('--soft')
  c.fillText('begun', plot.x(from) + 6, begun + (begun > STRIP_TOP + 12 ? -8 : 9))
  c.fillStyle = color('--ink')
  c.fillText('synced', plot.x(from) + 6, Math.min(plot.bottom - 8, synced + 9))
}

// A bar for each cut that was tried, in red where the mount showed what it may not.
function drawResults(c, results) {
  const bar = plot.step / flash.fates(), right = color('--kept'), red = color('--red')
  for (const { at, fate, kept, isPart, wrong } of results) {
    const top = plot.y(wrong ? session.lines.length : kept + (isPart ? 0.5 : 0)), height = Math.max(1.5, plot.bottom - top)
    const x = plot.x(at) + fate * bar, width = Math.max(0.75, bar - (bar > 2.4 ? 0.6 : 0))
    c.fillStyle = wrong ? red : right
    c.globalAlpha = wrong ? 1 : 0.38
    c.fillRect(x, plot.bottom - height, width, height)
    c.globalAlpha = 1
    c.fillRect(x, plot.bottom - height, width, 2.5)
  }
}

function drawHandle(c, call) {
  const at = plot.x(call) + plot.step / 2
  c.strokeStyle = c.fillStyle = color('--red')
  c.lineWidth = 2
  c.beginPath()
  c.moveTo(at, 0)
  c.lineTo(at, plot.bottom)
  c.stroke()
  rounded(c, at - 7, LANES + 2, 14, 20, 5)
  c.fill()
  c.fillStyle = color('--red-ink')
  for (const dx of [-2.5, 1]) c.fillRect(at + dx, LANES + 8, 1.5, 8)
}

function drawStrip({ call, running, results }) {
  const { context: c, width, height } = sized($('strip'))
  plot = stripPlot(width, height)
  drawStripLabels(c)
  c.fillStyle = color('--rule')
  c.fillRect(plot.left, plot.bottom, plot.right - plot.left, 1)
  if (session.calls.length === 0) return
  const runs = runsOfLines()
  drawCommands(c, runs, running)
  drawCalls(c)
  drawAllowed(c, runs)
  drawResults(c, results)
  drawHandle(c, call)
}

const callUnder = x => Math.max(1, Math.min(plot.calls, Math.floor((x - plot.left) / plot.step) + 1))
