'use strict'
// Does the lines of a trace with the exports of the page's module, in the page. Returns the SHA-256 of each part: for each line its code in
// four bytes and what it filled; then the calls of the device, and the flash.

async function replay(lines) {
  const sums = []
  let parts = []
  const keep = bytes => parts.push(bytes.slice())
  const filled = { read: code => code, list: code => code, stat: code => code === 0 ? 40 : 0, space: code => code === 0 ? 24 : 0 }
  const special = {
    make: numbers => makeFlashes(...numbers),
    mark: ([chip, block]) => { marksOf(chip)[block] = 1 },
    fill: ([seed, bytes]) => {
      let state = seed
      buffer(bytes).forEach((_, i, all) => { all[i] = (state = (Math.imul(state, 1103515245) + 12345) >>> 0) >>> 16 })
    },
  }
  const end = async () => {
    for (const bytes of [new Uint8Array(callsMade().buffer), kindsOf(0), tagsOf(0), dataOf(0), marksOf(0)]) keep(bytes)
    const sum = await crypto.subtle.digest('SHA-256', await new Blob(parts).arrayBuffer())
    sums.push([...new Uint8Array(sum)].map(byte => byte.toString(16).padStart(2, '0')).join(''))
    parts = []
    flash.begin_calls()
  }
  flash.begin_calls()
  for (const line of lines) {
    const [name, ...words] = line.split(' '), isPath = word => word[0] === '/'
    const numbers = words.filter(word => !isPath(word)).map(Number), paths = words.filter(isPath)
    if (name === 'end') { await end(); continue }
    if (paths.length > 0) put(...paths)
    const code = (special[name] ? special[name](numbers) : flash[name](...numbers)) ?? 0
    keep(new Uint8Array(Int32Array.of(code).buffer))
    if (filled[name] && code >= 0) keep(buffer(filled[name](code)))
  }
  return sums
}

module.exports = { replay }
