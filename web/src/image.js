// The image of a device: docs/FORMATS.md, "The image of a device".

const IMAGE_MAGIC = 'NANDIMG1', IMAGE_HEAD_BYTES = 32
const MOST_IMAGE_PAGES = 65536, MOST_IMAGE_BYTES = 2 ** 27 // 128 MiB of data: the module holds three flashes of it

const imagePlace = (sizes, page) => IMAGE_HEAD_BYTES + sizes.blocks + page * (1 + TAG_BYTES + sizes.pageBytes)
const isPower = (number, least, most) => number >= least && number <= most && (number & (number - 1)) === 0

function refuseUnless(holds, words) {
  if (!holds) throw new Error(words)
}

// The sizes in the head of an image; throws, with a text, where the bytes are none.
function imageSizes(bytes) {
  const begins = bytes.length >= IMAGE_HEAD_BYTES && text.decode(bytes.subarray(0, 8)) === IMAGE_MAGIC
  refuseUnless(begins, 'This is no image: it does not begin with NANDIMG1.')
  const head = new DataView(bytes.buffer, bytes.byteOffset, IMAGE_HEAD_BYTES)
  const [pageBytes, blockPages, blocks] = [8, 12, 16].map(at => head.getUint32(at, true))
  const areSizes = isPower(pageBytes, 512, 4096) && isPower(blockPages, 32, 256) && blocks >= 5 && blocks <= 4096
  refuseUnless(areSizes, 'The image is of sizes that no device has.')
  const pages = blockPages * blocks, sizes = { pageBytes, blockPages, blocks, pages }, length = imagePlace(sizes, pages)
  refuseUnless(bytes.length === length, `The image has ${bytes.length} bytes where its sizes want ${length}.`)
  const fits = pages <= MOST_IMAGE_PAGES && pages * pageBytes <= MOST_IMAGE_BYTES
  refuseUnless(fits, 'The image is larger than this page holds: 65,536 pages, 128 MiB.')
  return sizes
}

// Makes all flashes of the image's sizes, and the base of its bytes. A mark is any byte but 0, and a lost page any kind above 1.
function readImage(bytes) {
  const { pageBytes, blockPages, blocks, pages } = imageSizes(bytes)
  if (makeFlashes(pageBytes, blockPages, blocks) < 0) throw new Error('There is no memory for flashes of this size.')
  marksOf(BASE).set(bytes.subarray(IMAGE_HEAD_BYTES, IMAGE_HEAD_BYTES + blocks).map(mark => mark === 0 ? 0 : 1))
  const kinds = kindsOf(BASE), tags = tagsOf(BASE), data = dataOf(BASE)
  for (let page = 0; page < pages; page++) {
    const at = imagePlace(size, page), tagAt = at + 1, dataAt = tagAt + TAG_BYTES
    kinds[page] = Math.min(bytes[at], LOST)
    tags.set(bytes.subarray(tagAt, dataAt), page * TAG_BYTES)
    data.set(bytes.subarray(dataAt, dataAt + pageBytes), page * pageBytes)
  }
}

function imageOf(chip) {
  const bytes = new Uint8Array(imagePlace(size, size.pages)), head = new DataView(bytes.buffer)
  bytes.set(utf8.encode(IMAGE_MAGIC))
  ;[size.pageBytes, size.blockPages, size.blocks].forEach((number, i) => head.setUint32(8 + 4 * i, number, true))
  bytes.set(marksOf(chip), IMAGE_HEAD_BYTES)
  const kinds = kindsOf(chip), tags = tagsOf(chip), data = dataOf(chip)
  for (let page = 0; page < size.pages; page++) {
    const at = imagePlace(size, page)
    bytes[at] = kinds[page]
    bytes.set(tags.subarray(page * TAG_BYTES, (page + 1) * TAG_BYTES), at + 1)
    bytes.set(data.subarray(page * size.pageBytes, (page + 1) * size.pageBytes), at + 1 + TAG_BYTES)
  }
  return bytes
}
