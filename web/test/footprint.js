'use strict'
// The pages of an image that its tree is made of, and its tree, by docs/FORMATS.md alone: nothing of the page or the library is used.

const TAG_BYTES = 48, HEAD_BYTES = 32, SLOT_BYTES = 272, DIRECTORY = 2

function readImage(bytes) {
  const [pageBytes, blockPages, blocks] = [8, 12, 16].map(at => bytes.readUInt32LE(at))
  const marks = [...bytes.subarray(HEAD_BYTES, HEAD_BYTES + blocks)].map(mark => mark !== 0)
  const pages = Array.from({ length: blocks * blockPages }, (_, page) => {
    const at = HEAD_BYTES + blocks + page * (1 + TAG_BYTES + pageBytes), tag = bytes.subarray(at + 1, at + 1 + TAG_BYTES)
    const [index, count] = [0, 4].map(place => tag.readUInt32LE(place)), data = bytes.subarray(at + 1 + TAG_BYTES, at + 1 + TAG_BYTES + pageBytes)
    const [object, chunk, version, group, seq] = [8, 16, 24, 32, 40].map(place => tag.readBigUInt64LE(place))
    return { page, block: Math.floor(page / blockPages), kind: bytes[at], index, count, object, chunk, version, group, seq, data }
  })
  return { pageBytes, blockPages, marks, pages }
}

// Whether a whole group begins at a page: so many written pages of its block, one after the other, of one group and count.
function isWhole({ marks, pages }, first) {
  const { block, count, group } = pages[first]
  if (marks[block] || count < 1 || count > 256) return false
  const run = pages.slice(first, first + count), isOfGroup = page => page.block === block && page.count === count && page.group === group
  return run.length === count && run.every((page, i) => page.kind === 1 && page.index === i && isOfGroup(page))
}

const isNewer = (one, other) => {
  const order = ['version', 'seq', 'page'].find(field => one[field] !== other[field])
  return order !== undefined && one[order] > other[order]
}

// The newest page of each key, among those of whole groups.
function newestPages(image) {
  const newest = new Map(), isCounted = ({ index, count, page }) => index < count && page >= index && isWhole(image, page - index)
  for (const page of image.pages.filter(isCounted)) {
    const key = `${page.object} ${page.chunk}`, other = newest.get(key)
    if (!other || isNewer(page, other)) newest.set(key, page)
  }
  return newest
}

// The chunks that a header leads to: of a directory those of its entries, of a file those of its presence bits.
function chunksOf(data, pageBytes) {
  const length = Number(data.readBigUInt64LE(8)), slots = Math.floor(pageBytes / SLOT_BYTES)
  if (data[5] === DIRECTORY) return Array.from({ length: Math.ceil(length / slots) }, (_, i) => i + 1)
  const chunks = Array.from({ length: 8 * (pageBytes - HEAD_BYTES) }, (_, i) => i + 1)
  return chunks.filter(chunk => data[HEAD_BYTES + ((chunk - 1) >> 3)] >> ((chunk - 1) & 7) & 1)
}

function entriesOf(pages, length, pageBytes) {
  const count = Math.floor(pageBytes / SLOT_BYTES), slot = (data, i) => data.subarray(i * SLOT_BYTES, (i + 1) * SLOT_BYTES)
  const slots = pages.flatMap(({ data }) => Array.from({ length: count }, (_, i) => slot(data, i)))
  return slots.slice(0, length).map(slot => ({ object: slot.readBigUInt64LE(0), name: slot.toString('utf8', 10, 10 + slot.readUInt16LE(8)) }))
}

// The tree, a line a name, with a slash after a directory, in order; and the pages that it is made of.
function treeOf(bytes) {
  const image = readImage(bytes), newest = newestPages(image), pages = new Set(), names = []
  const visit = (object, path) => {
    const header = newest.get(`${object} 0`), data = header.data, isDirectory = data[5] === DIRECTORY
    const below = chunksOf(data, image.pageBytes).map(chunk => newest.get(`${object} ${chunk}`))
    for (const page of [header, ...below]) pages.add(page.page)
    if (path !== '') names.push(isDirectory ? `${path}/` : `${path} ${data.readBigUInt64LE(8)}`)
    const entries = isDirectory ? entriesOf(below, Number(data.readBigUInt64LE(8)), image.pageBytes) : []
    for (const entry of entries) visit(entry.object, `${path}/${entry.name}`)
  }
  visit(1n, '')
  return { names: names.sort(), pages: [...pages].sort((one, other) => one - other) }
}

module.exports = { readImage, treeOf }
