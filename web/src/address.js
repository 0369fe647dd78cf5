// What is behind the # of the page's address: a script, the call in which power goes, and its fate.

const toAddress = ({ lines, call, fate }) => `#script=${lines.map(encodeURIComponent).join('&line=')}&call=${call}&fate=${fate}`

// Null where the address has none; throws, with a text, where it is none.
function fromAddress(hash) {
  if (hash.length < 2) return null
  const words = new URLSearchParams(hash.slice(1))
  if (!words.has('script')) throw new Error('The address has no script.')
  const lines = [words.get('script'), ...words.getAll('line')].filter(line => line.trim() !== '')
  const [call, fate] = ['call', 'fate'].map(name => words.get(name) ?? '')
  if (!/^\d{1,7}$/.test(call)) throw new Error('The call in the address is no number.')
  if (!/^\d{1,7}$/.test(fate) || +fate >= flash.fates()) throw new Error(`The device has no fate ${fate}: they are 0 to ${flash.fates() - 1}.`)
  return { lines, call: +call, fate: +fate }
}
