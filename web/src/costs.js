// What calls of a device cost.

// Microseconds of a call, by its kind: a mark is read as a tag is, and written as a page is.
const CALL_TIMES = { [MARK_READ]: 26.6, [TAG_READ]: 26.6, [PAGE_READ]: 75, [PROGRAM]: 250, [ERASE]: 1500, [MARK]: 250 }

// Of the first calls of the session: how many of each kind, the time of the flash in microseconds, and how many bytes were programmed
// for each that the commands begun by then had written (null: none was).
function costsOf(count) {
  const counts = new Array(6).fill(0), line = session.lineOf[count - 1], written = session.written[line] ?? 0
  for (const call of session.calls.subarray(0, count)) counts[kindOf(call)]++
  const time = counts.reduce((sum, number, kind) => sum + number * CALL_TIMES[kind], 0)
  return { counts, time, written, amplification: written === 0 ? null : counts[PROGRAM] * size.pageBytes / written }
}
