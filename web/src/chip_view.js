// The picture of the chip: a row is a block, a cell a page.

const color = name => getComputedStyle(document.documentElement).getPropertyValue(name).trim()

// A canvas in the pixels of the screen, cleared.
function sized(canvas) {
  const { clientWidth: width, clientHeight: height } = canvas, ratio = window.devicePixelRatio || 1
  if (canvas.width !== Math.round(width * ratio) || canvas.height !== Math.round(height * ratio)) {
    canvas.width = Math.round(width * ratio)
    canvas.height = Math.round(height * ratio)
  }
  const context = canvas.getContext('2d')
  context.setTransform(ratio, 0, 0, ratio, 0, 0)
  context.clearRect(0, 0, width, height)
  return { context, width, height }
}

function rounded(c, x, y, width, height, radius) {
  c.beginPath()
  c.roundRect(x, y, width, height, radius)
}

const LEGS = 12, TOP = 34, BOTTOM = 13, LABELS = 34, LEAST_ROW = 4
let grid

// Where the cells are in a canvas of this size. Rows have a least height: the canvas of a chip with many blocks is higher than its frame.
function cellGrid(width, height) {
  const cable = width < 480 ? 46 : 86, left = LEGS + LABELS
  const pitch = Math.min((width - 2 * LEGS - LABELS - 12 - cable) / size.blockPages, 20)
  const row = Math.min(Math.max((height - TOP - BOTTOM - 5) / size.blocks, LEAST_ROW), 25)
  const gap = pitch < 5 || row < 7 ? 0.5 : 2
  return { pitch, row, left, gap, right: left + pitch * size.blockPages, bottom: TOP + row * size.blocks }
}

const cellAt = (block, page) => [grid.left + page * grid.pitch, TOP + block * grid.row]

function drawPlug(c, plug, y) {
  rounded(c, plug - 4, y - 11, 18, 22, 5)
  c.fill()
  c.lineWidth = 3.5
  for (const dy of [-5, 5]) {
    c.beginPath()
    c.moveTo(plug + 14, y + dy)
    c.lineTo(plug + 25, y + dy)
    c.stroke()
  }
}

// The cable from the chip to the wall.
function drawCable(c, from, y, width, power) {
  const live = power ? color('--kept') : color('--red'), wall = width - 15
  const plug = Math.max(from + 2, wall - 30 - (power ? 0 : Math.min(20, width - from - 60)))
  c.lineCap = 'round'
  c.strokeStyle = c.fillStyle = color('--soft')
  c.lineWidth = 4
  c.beginPath()
  c.moveTo(from, y)
  c.bezierCurveTo(from + 14, y, plug - 20, y + (power ? 0 : 12), plug, y)
  c.stroke()
  drawPlug(c, plug, y)
  rounded(c, wall - 8, y - 21, 22, 42, 5)
  c.fill()
  c.fillStyle = live
  c.beginPath()
  c.arc(wall + 3, y, 4, 0, 7)
  c.fill()
  c.lineCap = 'butt'
}

function drawLegs(c, x, y, width, height) {
  c.fillStyle = color('--soft')
  c.globalAlpha = 0.55
  for (let i = 0; i < 12; i++) {
    const at = y + 16 + (height - 44) / 11 * i
    c.fillRect(x - 11, at, 11, 12)
    c.fillRect(x + width, at, 11, 12)
  }
  c.globalAlpha = 1
}

function drawBody(c, width, power) {
  const x = LEGS, y = 1, w = grid.right - LEGS + 12, h = grid.bottom + BOTTOM - 1
  drawCable(c, x + w + 11, y + Math.min(h, 380) / 2, width, power)
  drawLegs(c, x, y, w, h)
  c.fillStyle = color('--body')
  c.strokeStyle = color('--body-edge')
  c.lineWidth = 1
  rounded(c, x + 0.5, y + 0.5, w - 1, h - 1, 9)
  c.fill()
  c.stroke()
  const sizes = `${size.blocks} × ${size.blockPages} × ${size.pageBytes}`, isWide = grid.right - grid.left > 330
  c.fillStyle = color('--print')
  c.textBaseline = 'middle'
  c.textAlign = 'left'
  c.font = `600 11px ${color('--mono')}`
  c.fillText(`NAND ${size.pages * size.pageBytes / 1024} KiB`, grid.left, y + 17)
  c.textAlign = 'right'
  c.font = `11px ${color('--mono')}`
  c.fillText(isWide ? `${size.blocks} blocks × ${size.blockPages} pages × ${size.pageBytes} bytes` : sizes, grid.right - 2, y + 17)
}

function cross(c, x, y, width, height) {
  c.beginPath()
  c.moveTo(x + width * 0.2, y + height * 0.15)
  c.lineTo(x + width * 0.8, y + height * 0.85)
  c.moveTo(x + width * 0.8, y + height * 0.15)
  c.lineTo(x + width * 0.2, y + height * 0.85)
  c.stroke()
}

function slash(c, x, y, width, height) {
  c.beginPath()
  c.moveTo(x, y + height)
  c.lineTo(x + width, y)
  c.stroke()
}

function drawCell(c, page, colors, { picture, marked, power, heat, glow }) {
  const [x, y] = cellAt(blockAt(page), pageIn(page)), width = grid.pitch - grid.gap, height = grid.row - grid.gap
  const isBad = picture.marks[blockAt(page)], isSmall = grid.gap < 1
  c.globalAlpha = !power ? 0.32 : marked.size > 0 && !marked.has(page) ? 0.3 : 1
  c.fillStyle = isBad ? colors.bad : colors.cells[picture.cells[page]]
  c.fillRect(x, y, width, height)
  c.strokeStyle = colors.body
  c.lineWidth = isSmall ? 1 : 2
  if (isBad) slash(c, x, y, width, height)
  else if (picture.cells[page] === LOST) cross(c, x, y, width, height)
  if (glow[page] > 0.02) {
    c.globalAlpha = Math.min(1, glow[page])
    c.strokeStyle = colors.read
    c.lineWidth = 1.5
    c.strokeRect(x - 0.25, y - 0.25, width + 0.5, height + 0.5)
  }
  if (heat[page] > 0.02) {
    c.globalAlpha = Math.min(1, heat[page])
    c.fillStyle = colors.hot
    c.fillRect(x, y, width, height)
  }
  c.globalAlpha = 1
}

function drawLabels(c) {
  const each = Math.ceil(11 / grid.row)
  c.fillStyle = color('--print')
  c.textAlign = 'right'
  c.font = `10px ${color('--mono')}`
  for (let block = 0; block < size.blocks; block += each) c.fillText(block, grid.left - 9, TOP + block * grid.row + Math.min(grid.row, 11) / 2)
}

function frame(c, page, pages, style, width) {
  const [x, y] = cellAt(blockAt(page), pageIn(page))
  c.strokeStyle = style
  c.lineWidth = width
  rounded(c, x - 3, y - 3, grid.pitch * pages - grid.gap + 6, grid.row - grid.gap + 6, 4)
  c.stroke()
}

// `shown` has the picture, and what is seen on it: marked pages, the page that power left half done, the pointer.
function drawChip(shown) {
  const canvas = $('cells'), room = $('frame').clientHeight
  canvas.style.height = `${Math.max(room, TOP + BOTTOM + 6 + size.blocks * LEAST_ROW)}px`
  const { context: c, width, height } = sized(canvas)
  grid = cellGrid(width, height)
  drawBody(c, width, shown.power)
  drawLabels(c)
  const colors = { cells: ['--erased', '--live', '--bad-page', '--stale', '--checkpoint'].map(color), bad: color('--bad'), body: color('--body'),
    hot: color('--hot'), read: color('--read') }
  for (let page = 0; page < size.pages; page++) drawCell(c, page, colors, shown)
  if (shown.touched) frame(c, shown.touched.page, shown.touched.pages, color('--red'), 2.5)
  if (shown.pointer !== null) frame(c, shown.pointer, 1, color('--read'), 2)
  canvas.setAttribute('aria-label', describeChip(shown.picture))
}

// The page at a place in the canvas; null where there is none.
function pageUnder(x, y) {
  const page = Math.floor((x - grid.left) / grid.pitch), block = Math.floor((y - TOP) / grid.row)
  const isThere = page >= 0 && page < size.blockPages && block >= 0 && block < size.blocks
  return isThere ? block * size.blockPages + page : null
}
