'use strict'
// The stored script by hand: README.md, "The stored script, by hand", derives these numbers.

const SCRIPT_CALLS = 38
const SCRIPT_COSTS = { programs: 28, erases: 1, reads: 9, amplification: '2.60', time: '9.2 ms' }
const AFTER = 1, MIXED = 3 // of the fates: as it was to be, and each page one of the others

// The groups that the script commits: the call that programs the last page of each, and how many commands a mount shows from then on.
const SCRIPT_GROUPS = [{ last: 12, kept: 1 }, { last: 17, kept: 4 }, { last: 25, kept: 7 }, { last: 30, kept: 9 }, { last: 36, kept: 11 }]

// How many commands the mount after a cut shows: those of the groups whose last page was programmed. A mixed fate of that page is drawn, so
// that it may be either number.
function keptByHand(at, fate) {
  const keptBy = isWritten => SCRIPT_GROUPS.findLast(isWritten)?.kept ?? 0
  const before = keptBy(({ last }) => last < at), after = keptBy(({ last }) => last <= at)
  return fate === AFTER ? [after] : fate === MIXED ? [before, after] : [before]
}

module.exports = { SCRIPT_CALLS, SCRIPT_COSTS, SCRIPT_GROUPS, keptByHand }
