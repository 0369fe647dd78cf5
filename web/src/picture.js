// What the page keeps of a flash for its picture: of each page what it is, of each block its mark, and the tags.

const ERASED = 0, LIVE = 1, LOST = 2, STALE = 3, CHECKPOINT = 4
const CELL_NAMES = ['erased', 'in the tree', 'uncorrectable', 'stale, or not yet synced', 'of the checkpoint']
const CHECKPOINT_OBJECT = 2n ** 64n - 1n

function tagAt(tags, page) {
  const bytes = new DataView(tags.buffer, tags.byteOffset + page * TAG_BYTES, TAG_BYTES)
  const [object, chunk, version, group, seq] = [8, 16, 24, 32, 40].map(at => bytes.getBigUint64(at, true))
  return { index: bytes.getUint32(0, true), count: bytes.getUint32(4, true), object, chunk, version, group, seq }
}

// A page is in the tree if the mount or the walk read it, and it is none of the checkpoint.
function cellOf(kind, isRead, tags, page) {
  if (kind !== LIVE) return kind
  if (!isRead) return STALE
  return tagAt(tags, page).object === CHECKPOINT_OBJECT ? CHECKPOINT : LIVE
}

function pictureOf(chip, tree, mounting) {
  const tags = tagsOf(chip).slice(), isRead = new Uint8Array(size.pages)
  for (const page of [...mounting, ...tree.flatMap(node => node.pages)]) isRead[page] = 1
  const cells = kindsOf(chip).map((kind, page) => cellOf(kind, isRead[page], tags, page))
  return { cells, marks: marksOf(chip).slice(), tags }
}

const copyOf = picture => ({ cells: picture.cells.slice(), marks: picture.marks.slice(), tags: picture.tags })

// The pages of an object in the tree of a picture, by their tags, in the order of their chunks.
function pagesOf(picture, object) {
  const pages = []
  picture.cells.forEach((cell, page) => {
    if (cell !== LIVE || picture.marks[blockAt(page)]) return
    const tag = tagAt(picture.tags, page)
    if (tag.object === object) pages.push({ page, chunk: tag.chunk })
  })
  return pages.sort((one, other) => one.chunk < other.chunk ? -1 : 1)
}

const blockAt = page => Math.floor(page / size.blockPages)
const pageIn = page => page % size.blockPages

const describeTag = tag => tag.object === CHECKPOINT_OBJECT
  ? `checkpoint, chunk ${tag.chunk}, version ${tag.version}, group ${tag.group}, seq ${tag.seq}`
  : `object ${tag.object}, chunk ${tag.chunk}, version ${tag.version}, group ${tag.group}, seq ${tag.seq}`

// A page of a picture in words, with its tag where it has one.
function describePage(picture, page) {
  const where = `Block ${blockAt(page)}, page ${pageIn(page)}: `, cell = picture.cells[page]
  if (picture.marks[blockAt(page)]) return `${where}in a bad block`
  const tag = cell === ERASED || cell === LOST ? '' : `; ${describeTag(tagAt(picture.tags, page))}`
  return where + CELL_NAMES[cell] + tag
}

function describeChip(picture) {
  const counts = new Array(CELL_NAMES.length).fill(0), bad = [...picture.marks.keys()].filter(block => picture.marks[block])
  picture.cells.forEach((cell, page) => { if (!picture.marks[blockAt(page)]) counts[cell]++ })
  const pages = counts.map((count, cell) => `${count} ${CELL_NAMES[cell]}`).join(', ')
  return `${size.blocks} blocks of ${size.blockPages} pages. In good blocks: ${pages}. Bad blocks: ${bad.join(', ') || 'none'}.`
}
