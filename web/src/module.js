// The module: flashes in memory, each with a volume behind flash_fs.h (glue/glue.h says what each export does). Its memory is
// read here alone; it may grow, so that no view of it is kept.

const BASE = 0, NOW = 1, TRY = 2 // the flash at the last mount, after the commands, and one to try things on
const MARK_READ = 0, TAG_READ = 1, PAGE_READ = 2, PROGRAM = 3, ERASE = 4, MARK = 5
const TAG_BYTES = 48, BUFFER_BYTES = 65536
const utf8 = new TextEncoder(), text = new TextDecoder()

let flash, size

async function load() {
  const bytes = Uint8Array.from(atob(MODULE), letter => letter.charCodeAt(0))
  const module = await WebAssembly.compile(bytes)
  flash = (await WebAssembly.instantiate(module, {})).exports
  return { bytes: bytes.length, imports: WebAssembly.Module.imports(module).length }
}

function makeFlashes(pageBytes, blockPages, blocks) {
  size = { pageBytes, blockPages, blocks, pages: blockPages * blocks }
  return flash.make(pageBytes, blockPages, blocks)
}

const memoryAt = (address, bytes) => new Uint8Array(flash.memory.buffer, Number(address), bytes)
const kindsOf = chip => memoryAt(flash.kinds(chip), size.pages)
const tagsOf = chip => memoryAt(flash.tags(chip), size.pages * TAG_BYTES)
const dataOf = chip => memoryAt(flash.data(chip), size.pages * size.pageBytes)
const marksOf = chip => memoryAt(flash.marks(chip), size.blocks)
const buffer = bytes => memoryAt(flash.bytes(), bytes)

function put(...paths) {
  const bytes = utf8.encode(paths.join('\0') + '\0')
  if (bytes.length > BUFFER_BYTES) return put('')
  buffer(bytes.length).set(bytes)
}

// A call of the device is a number: its kind, block and page.
const kindOf = call => call >>> 28, blockOf = call => call >>> 16 & 0xfff, pageOf = call => call & 0xffff
const placeOf = call => blockOf(call) * size.blockPages + pageOf(call)
const changes = call => kindOf(call) >= PROGRAM

function callsMade() {
  const count = Math.min(flash.call_count(), flash.most_calls())
  return new Uint32Array(flash.memory.buffer, Number(flash.calls()), count).slice()
}

function pagesRead() {
  const pages = [...callsMade()].filter(call => kindOf(call) === PAGE_READ).map(placeOf)
  flash.begin_calls()
  return pages
}
