// The commands that are typed, as calls of flash_fs.h. A line is done on a flash with a moment; after each call its run is handed
// the code and how many bytes were written. What a line returns is the code of its first call that failed, or 0.

const WRITE = 2, CREATE = 4, TRUNCATE = 16, APPEND = 32
const EINVAL = -22, UNKNOWN = -1000, TOO_LONG = -1001
const ERRORS = {
  [-1]: 'that is a directory (EPERM)', [-2]: 'nothing has this name (ENOENT)', [-5]: 'the volume has stopped (EIO)',
  [-12]: 'no memory (ENOMEM)', [-16]: 'the root stays (EBUSY)', [-17]: 'the name exists (EEXIST)', [-19]: 'the device holds no volume',
  [-20]: 'not a directory (ENOTDIR)', [-21]: 'that is a directory (EISDIR)', [EINVAL]: 'that cannot be (EINVAL)',
  [-27]: 'too long a file (EFBIG)', [-28]: 'the volume is full (ENOSPC)',
  [-30]: 'the volume can only be read (EROFS)', [-36]: 'too long a name (ENAMETOOLONG)', [-39]: 'the directory has entries (ENOTEMPTY)',
  [-84]: 'what the device holds is no tree', [-95]: 'a volume of a newer format', [UNKNOWN]: 'no such command: help shows them',
  [TOO_LONG]: 'the session has more calls of the device than the page keeps',
}
const HELP = 'mkdir P · rmdir P · write P text, or a count of bytes · append P text · truncate P bytes · mv P Q · ln P Q · rm P · sync · ' +
  'list P · read P · show P: its pages · space · fail: the next program fails'

const errorText = code => ERRORS[code] ?? `error ${code}`
const isSync = line => /^\s*sync\s*$/.test(line)

// A write of no more bytes is one step of the library.
const mostAtOnce = () => (size.blockPages / 4 - 3) * size.pageBytes

// The bytes of a write: the text, or so many of a log's.
function bytesOf(words, seed) {
  if (!/^\d{3,5}$/.test(words)) return utf8.encode(words + '\n')
  const twoDigits = number => String(number).padStart(2, '0'), degrees = i => (20 + Math.sin(i / 4 + seed) * 3).toFixed(2)
  const lines = Array.from({ length: Math.ceil(+words / 16) }, (_, i) => `${twoDigits(seed)}:${twoDigits(i)} ${degrees(i)} degrees\n`)
  return utf8.encode(lines.join('').slice(0, +words))
}

function did(run, code, bytes = 0) {
  run.step(code, bytes)
  return Math.min(code, 0)
}

const onPaths = (name, count) => (run, ...paths) => {
  put(...paths.slice(0, count))
  return did(run, flash[name](run.chip, run.moment))
}

function openFor(run, path, flags) {
  put(path)
  const fd = flash.open(run.chip, WRITE | flags, run.moment)
  run.step(fd, 0)
  return fd
}

const writing = flags => (run, path, rest) => {
  const fd = openFor(run, path, CREATE | flags)
  if (fd < 0) return fd
  const bytes = bytesOf(rest, run.moment)
  let code = 0
  for (let at = 0; at < bytes.length && code >= 0; at += code) {
    const piece = bytes.subarray(at, at + mostAtOnce())
    buffer(piece.length).set(piece)
    code = flash.write(run.chip, fd, piece.length, run.moment)
    run.step(code, Math.max(code, 0))
  }
  if (code < 0) flash.close(run.chip, fd)
  return code < 0 ? code : did(run, flash.close(run.chip, fd))
}

function truncate(run, path, length) {
  if (!/^\d{1,9}$/.test(length)) return EINVAL
  const fd = openFor(run, path, 0)
  if (fd < 0) return fd
  const code = did(run, flash.truncate(run.chip, fd, +length, run.moment))
  if (code < 0) flash.close(run.chip, fd)
  return code < 0 ? code : did(run, flash.close(run.chip, fd))
}

function failNext(run) {
  flash.fail_next_program(run.chip)
  return did(run, 0)
}

const COMMANDS = {
  mkdir: onPaths('mkdir', 1), rmdir: onPaths('rmdir', 1), rm: onPaths('unlink', 1), mv: onPaths('rename', 2), ln: onPaths('link', 2),
  write: writing(TRUNCATE), append: writing(APPEND), truncate, sync: onPaths('sync', 0), fail: failNext,
}

function doLine(chip, line, moment, step = () => {}) {
  const [, word, first, rest] = line.match(/^\s*(\S*)\s*(\S*)\s*(.*?)\s*$/)
  return Object.hasOwn(COMMANDS, word) ? COMMANDS[word]({ chip, moment, step }, first, rest) : UNKNOWN
}
