// The controls, and the start.

function listenToShell() {
  $('prompt').onsubmit = event => {
    event.preventDefault()
    const line = $('typed').value
    if (!busy) $('typed').value = ''
    act(() => type(line))
  }
  $('script').onclick = () => act(() => { makeBase(); return runScript() })
  $('fresh').onclick = () => act(fresh)
}

function listenToPower() {
  const strip = $('strip'), keys = { ArrowLeft: -1, ArrowRight: 1, PageUp: 10, PageDown: -10, Home: -Infinity, End: Infinity }
  $('pull').onclick = () => act(pull)
  $('all').onclick = () => act(pullAtAll)
  $('back').onclick = () => choose(view.call - 1)
  $('forward').onclick = () => choose(view.call + 1)
  const callAt = event => callUnder(event.clientX - strip.getBoundingClientRect().left)
  strip.onpointerdown = event => {
    strip.setPointerCapture(event.pointerId)
    choose(callAt(event))
  }
  strip.onpointermove = event => { if (event.buttons && callAt(event) !== view.call) choose(callAt(event)) }
  strip.onkeydown = event => {
    if (!Object.hasOwn(keys, event.key)) return
    event.preventDefault()
    choose(view.call + keys[event.key])
  }
}

function listenToChip() {
  const cells = $('cells'), keys = { ArrowLeft: () => -1, ArrowRight: () => 1, ArrowUp: () => -size.blockPages, ArrowDown: () => size.blockPages }
  cells.onmousemove = event => {
    const box = cells.getBoundingClientRect()
    point(pageUnder(event.clientX - box.left, event.clientY - box.top))
  }
  cells.onmouseleave = () => point(null)
  cells.onblur = () => point(null)
  cells.onkeydown = event => {
    if (!Object.hasOwn(keys, event.key)) return
    event.preventDefault()
    const page = view.pointer === null ? 0 : view.pointer + keys[event.key]()
    if (page >= 0 && page < size.pages) point(page)
  }
}

function listenToImages() {
  const file = $('file')
  $('open').onclick = () => file.click()
  file.onchange = () => {
    if (file.files.length > 0) act(() => openImage(file.files[0]))
    file.value = ''
  }
  $('save').onclick = saveImage
  document.ondragover = event => event.preventDefault()
  document.ondrop = event => {
    event.preventDefault()
    if (event.dataTransfer.files.length > 0) act(() => openImage(event.dataTransfer.files[0]))
  }
}

async function copyAddress() {
  writeAddress()
  const isCopied = await navigator.clipboard?.writeText(location.href).then(() => true, () => false)
  const where = isCopied ? 'The link is copied. ' : 'The link is the address of this page. '
  $('result').replaceChildren(where, 'It has the script, the call and the fate, and no image.')
}

function listenToPage() {
  $('address').onclick = () => act(copyAddress)
  $('theme').onclick = () => {
    document.documentElement.dataset.theme = document.documentElement.dataset.theme === 'dark' ? 'light' : 'dark'
    draw()
  }
  window.onhashchange = () => act(firstScript)
  const sizes = new ResizeObserver(draw)
  for (const id of ['frame', 'strip']) sizes.observe($(id))
}

// The script of the address, or the stored one. An address that is none is shown with its error.
async function firstScript() {
  makeBase()
  try {
    const found = fromAddress(location.hash)
    await (found ? runScript(found.lines, found.call, found.fate) : runScript())
  } catch (error) {
    fresh()
    say('No script', error.message, true)
  }
}

async function start() {
  document.documentElement.dataset.theme = matchMedia('(prefers-color-scheme: dark)').matches ? 'dark' : 'light'
  const { bytes, imports } = await load()
  $('facts').textContent = `WebAssembly: ${Math.round(bytes / 1000)} KB, ${plural(imports, 'import')}`
  makeBase()
  begin()
  view = freshView()
  for (const listen of [listenToShell, listenToPower, listenToChip, listenToImages, listenToPage]) listen()
  await act(firstScript)
}

start().catch(error => { $('facts').textContent = `This page asks for WebAssembly with a memory of 64 bits: ${error.message}` })
