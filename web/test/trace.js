'use strict'
// Drawn commands with cuts, as lines that the page's module and the same files on the host both do (replay.c, replay.js). A line has the
// name of an export, its numbers and its paths. `fill` fills the buffer, `mark` is the maker's mark, and `end` ends a part of the trace,
// whose replies, calls and flash are compared.

const SIZES = [[512, 32, 16], [1024, 32, 20], [512, 64, 12], [2048, 32, 24]]
const OFTEN = ['open', 'open', 'open', 'open', 'close', 'close', 'read', 'read', 'write', 'write', 'write', 'write', 'write', 'truncate', 'sync',
  'sync', 'stat', 'list', 'space', 'mkdir', 'mkdir', 'rmdir', 'unlink', 'link', 'rename', 'rename']
const FLAGS = [1, 2, 3, 6, 7, 7, 7, 7, 23, 39, 15, 0], DIRECTORIES = ['dir', 'old'], FILES = ['a', 'b', 'c', 'x.txt', 'n'.repeat(60)]

function source(seed) {
  let state = seed >>> 0
  return below => {
    state = (Math.imul(state, 1664525) + 1013904223) >>> 0
    return Math.floor(state / 2 ** 32 * below)
  }
}

// Most paths lead through names that are likely directories, and end in one that is likely of the kind that is asked for.
function drawnPath(drawn, isDirectory = false) {
  const one = names => names[drawn(names.length)], above = Array.from({ length: [0, 0, 1, 2][drawn(4)] }, () => one(DIRECTORIES))
  if (drawn(60) === 0) return one(['/', '//a', '/..', '/a/.', '/dir/'])
  return '/' + [...above, one(isDirectory !== (drawn(15) === 0) ? DIRECTORIES : FILES)].join('/')
}

function drawnWrite(drawn, moment) {
  const bytes = [drawn(9), 512, 500 + drawn(40), drawn(7000)][drawn(4)]
  return [`fill ${drawn(2 ** 31)} ${bytes}`, `write 0 ${drawn(4)} ${bytes} ${moment}`]
}

function drawnCommand(drawn) {
  const moment = drawn(100000), path = () => drawnPath(drawn), directory = () => drawnPath(drawn, true)
  const commands = {
    open: () => [`open 0 ${FLAGS[drawn(FLAGS.length)]} ${moment} ${path()}`], close: () => [`close 0 ${drawn(4)}`],
    read: () => [`read 0 ${drawn(4)} ${drawn(9000)}`], write: () => drawnWrite(drawn, moment),
    truncate: () => [`truncate 0 ${drawn(4)} ${drawn(9000)} ${moment}`],
    sync: () => ['sync 0'], stat: () => [`stat 0 ${path()}`], list: () => [`list 0 ${directory()}`], space: () => ['space 0'],
    mkdir: () => [`mkdir 0 ${moment} ${directory()}`], rmdir: () => [`rmdir 0 ${moment} ${directory()}`], unlink: () => [`unlink 0 ${moment} ${path()}`],
    link: () => [`link 0 ${moment} ${path()} ${path()}`], rename: () => [`rename 0 ${moment} ${path()} ${path()}`],
  }
  return commands[OFTEN[drawn(OFTEN.length)]]()
}

// A power-on session on the flash of the one before: a mount, commands, and an end with power that goes, or an unmount.
function drawnSession(drawn, count) {
  const lines = ['mount 0']
  if (drawn(5) > 0) lines.push(`cut 0 ${1 + drawn(count)} ${drawn(4)}`)
  if (drawn(8) === 0) lines.push('fail_next_program 0')
  for (let i = 0; i < count; i++) lines.push(...drawnCommand(drawn))
  return [...lines, drawn(4) === 0 ? 'unmount 0' : 'abandon 0', 'power_up 0', 'end']
}

// So many commands, a hundred a session, ten sessions a flash.
function drawnTrace(commands, seed) {
  const drawn = source(seed), lines = []
  for (let session = 0; session * 100 < commands; session++) {
    const sizes = SIZES[session / 10 % SIZES.length]
    if (session % 10 === 0) lines.push(`make ${sizes.join(' ')}`, `mark 0 ${drawn(sizes[2])}`, 'format 0 2')
    lines.push(...drawnSession(drawn, 100))
  }
  return lines
}

module.exports = { drawnTrace, source }
