// What a mounted volume shows: its tree, by the functions of flash_fs.h, and which pages were read for it.

const FILE = 1, DIRECTORY = 2, READ = 1

function infoOf(chip, path) {
  put(path)
  const code = flash.stat(chip)
  if (code < 0) return { kind: 0, code }
  const [kind, object, links, bytes, moment] = new BigUint64Array(buffer(40).slice().buffer)
  return { kind: Number(kind), object, links: Number(links), size: Number(bytes), moment, code }
}

function namesIn(chip, path) {
  put(path)
  const bytes = flash.list(chip)
  return bytes <= 0 ? [] : text.decode(buffer(bytes)).split('\0').slice(0, -1)
}

// The bytes of a file; fewer than its size where a read fails.
function contentOf(chip, path, bytes) {
  const content = new Uint8Array(bytes)
  put(path)
  const fd = flash.open(chip, READ, 0)
  let at = 0
  for (let count; at < bytes && (count = flash.read(chip, fd, BUFFER_BYTES)) > 0; at += count) content.set(buffer(count), at)
  flash.close(chip, fd)
  return content.subarray(0, at)
}

const sumOf = bytes => bytes.reduce((sum, byte) => Math.imul(sum ^ byte, 0x01000193) >>> 0, 0x811c9dc5)

function nodeAt(chip, path, depth) {
  const info = infoOf(chip, path), bytes = info.kind === FILE ? contentOf(chip, path, info.size) : null
  const key = [path, info.kind, info.links, info.size, info.moment, bytes ? `${bytes.length} ${sumOf(bytes)}` : ''].join(' ')
  return { path, depth, ...info, bytes, key }
}

// The nodes of a tree in the order of a walk. A node has its name, what stat reports, its bytes, and the pages that were read for it.
function walk(chip) {
  const nodes = []
  const visit = (path, depth) => {
    const node = nodeAt(chip, path || '/', depth), names = node.kind === DIRECTORY ? namesIn(chip, path || '/') : []
    nodes.push({ ...node, pages: pagesRead() })
    for (const name of names) visit(`${path}/${name}`, depth + 1)
  }
  flash.begin_calls()
  visit('', 0)
  return nodes
}

const keyOf = tree => tree.map(node => node.key).join('\n')

// Mounts a flash and walks its tree. Where the mount fails, `code` is its error and there is no tree.
function mounted(chip) {
  flash.begin_calls()
  const code = flash.mount(chip)
  if (code < 0) return { code, tree: [], key: null, picture: pictureOf(chip, [], []) }
  const mounting = pagesRead(), tree = walk(chip)
  return { code, tree, key: keyOf(tree), picture: pictureOf(chip, tree, mounting) }
}

function mountedCopy(chip) {
  flash.copy(TRY, chip)
  const found = mounted(TRY)
  flash.abandon(TRY)
  return found
}
