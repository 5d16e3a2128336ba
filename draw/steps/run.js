// A run: the steps of a report, and how each node and each writer stands after each of them.
//
// The states of nodes come with the data, as what each step changes; what is kept of writers are their own calls and results.
// A world is what stands after a step, and is never changed: worlds share what they have in common. Every some hundred steps one
// is kept, and those between are made from it.

const KEPT_EACH = 256
const CALL = 0, LATE = 1, OPERATOR = 2, RESULT = 3

// Numbers of a report go up to 2^62, so they are texts here.
const plus = (number, more) => String(BigInt(number) + BigInt(more))
const isLess = (one, other) => BigInt(one) < BigInt(other)
const range = (first, last) => first === last ? first : `${first}–${last}`

// A segment's last txid; the one before its start where it is empty.
const endOf = segment => plus(segment.start, segment.count - 1)

class Run {
  constructor(data) {
    this.title = data.title || 'A quorum journal'
    this.nodeCount = data.nodes
    this.majority = (data.nodes >> 1) + 1
    this.actors = data.actors
    this.writerCount = data.actors.filter(name => name !== 'ops').length
    this.role = data.names ? 'name node' : 'writer'
    this.epochs = data.epochs
    this.headings = data.headings
    this.edits = data.edits || {}
    this.story = data.story || []
    this.steps = data.steps.map((row, k) => new Step(data, row, k + 1))
    this.length = this.steps.length
    this.findRounds()
    this.findMarks()
    this.keepWorlds()
    this.about = aboutRun(this, data.note)
  }

  // What is said of a step (words.js).
  tell(number) {
    return tellStep(this, number)
  }

  // The step with this number, from 1 on.
  step(number) {
    return this.steps[number - 1]
  }

  // The round of each call: those of one actor in a row that ask the same, of nodes in order.
  findRounds() {
    let first = 1
    this.roundFirst = new Int32Array(this.length + 2)
    this.roundLast = new Int32Array(this.length + 2)
    for (let k = 1; k <= this.length; k++) {
      const step = this.step(k), next = this.step(k + 1)
      this.roundFirst[k] = first
      const goesOn = next && step.kind === CALL && next.kind === CALL && next.actor === step.actor && next.asked === step.asked &&
        next.node > step.node
      if (goesOn) continue
      this.roundLast.fill(k, first, k + 1)
      first = k + 1
    }
  }

  // The steps to which one jumps: where a takeover begins, something is lost, a node refuses, or a script's line begins.
  findMarks() {
    this.marks = { takeover: [], loss: [], refusal: [], line: [] }
    for (const [at] of this.headings) this.marks.line.push(at)
    this.steps.forEach((step, k) => {
      if (step.kind === CALL && step.words[0] === 'state' && this.roundFirst[k + 1] === k + 1) this.marks.takeover.push(k + 1)
      if (step.isLost) this.marks.loss.push(k + 1)
      if (step.isRefused) this.marks.refusal.push(k + 1)
    })
  }

  keepWorlds() {
    let world = freshWorld(this)
    this.kept = [world]
    for (let k = 1; k <= this.length; k++) {
      world = this.advance(world, k)
      if (k % KEPT_EACH === 0) this.kept.push(world)
    }
    this.last = { number: this.length, world }
  }

  // What stands after so many steps.
  worldAt(number) {
    if (this.last.number !== number) {
      const from = Math.floor(number / KEPT_EACH)
      const isNear = this.last.number < number && this.last.number >= from * KEPT_EACH
      let world = isNear ? this.last.world : this.kept[from]
      for (let k = (isNear ? this.last.number : from * KEPT_EACH) + 1; k <= number; k++) world = this.advance(world, k)
      this.last = { number, world }
    }
    return this.last.world
  }

  advance(world, number) {
    const step = this.step(number)
    let { nodes, writers } = world
    if (step.change) nodes = replaced(nodes, step.node - 1, changedNode(nodes[step.node - 1], step))
    if (step.actor in writers) writers = replaced(writers, step.actor, movedWriter(writers[step.actor], step, this.roundFirst[number]))
    return nodes === world.nodes && writers === world.writers ? world : { nodes, writers }
  }

  // The next such mark after a step, or the one before; 0 where there is none.
  markFrom(kind, number, isBack) {
    const marks = this.marks[kind]
    return (isBack ? marks[firstAbove(marks, number - 1) - 1] : marks[firstAbove(marks, number)]) || 0
  }

  // What the script's line is called to which a step belongs.
  headingAt(number) {
    const at = firstAbove(this.marks.line, number)
    return at ? this.headings[at - 1][1] : ''
  }

  // What a story tells at a step, where there is one.
  storyAt(number) {
    return this.story.reduce((told, [from, text]) => from <= number ? text : told, '')
  }

  // The calls of the round to which a step belongs.
  roundOf(number) {
    return this.steps.slice(this.roundFirst[number] - 1, this.roundLast[number])
  }

  // From which step on which epoch's writer was the last one that took over.
  reigns() {
    const takeovers = this.steps.filter(step => step.kind === RESULT && /^takeover \d/.test(step.asked))
    return takeovers.map(step => ({ from: step.number, epoch: step.words[1] }))
  }

  // The class of an epoch's colour, by its place among all epochs.
  colourOf(epoch) {
    const rank = this.epochs.indexOf(epoch)
    return rank < 0 ? 'e9' : `e${rank % 8}`
  }

  // The epoch to which a step belongs: the one under which is asked, or that of the writer who has a result.
  epochOf(step, world) {
    return step.epoch || (step.kind === RESULT ? world.writers[step.actor].epoch : '')
  }

  // How many nodes promised more than a writer's epoch: from a majority on it is fenced.
  isFenced(world, writer) {
    return writer.epoch !== '' && world.nodes.filter(node => isLess(writer.epoch, node.promised)).length >= this.majority
  }
}

// The first place in a rising list whose number is above this one.
function firstAbove(numbers, number) {
  let low = 0, high = numbers.length
  while (low < high) {
    const middle = (low + high) >> 1
    if (numbers[middle] <= number) low = middle + 1
    else high = middle
  }
  return low
}

// A call with its answer, a late copy, a line of the operator's, or a result.
class Step {
  constructor(data, [kind, actor, node, asked, answer, heard, line, change], number) {
    this.number = number
    this.kind = kind
    this.actor = actor
    this.node = node
    this.asked = data.texts[asked]
    this.answer = answer < 0 ? '' : data.texts[answer]
    this.heard = kind === RESULT ? heard : heard < 0 ? this.answer : data.texts[heard]
    this.line = line
    this.change = change
  }

  get words() {
    return this.asked.split(' ')
  }

  // Under which epoch is asked; none of a request without one.
  get epoch() {
    return this.kind === RESULT || this.kind === OPERATOR || /^(state|read|manifest)\b/.test(this.asked) ? '' : this.words[1]
  }

  // Whether a call or its reply was lost, or a node went down.
  get isLost() {
    if (this.kind === OPERATOR) return this.asked === 'kill' && this.answer === 'done'
    return this.kind === CALL && /^(dropped|muted|silent)$/.test(this.heard)
  }

  // Whether a node stopped inside the call.
  get isStopped() {
    return this.heard === 'silent' || /^stopped/.test(this.answer)
  }

  // A read that finds nothing later is how each tail ends, and no refusal to a reader.
  get isEndOfLog() {
    return /^read/.test(this.asked) && /^refused 15 /.test(this.answer)
  }

  get isRefused() {
    return this.kind === CALL && /^refused/.test(this.heard) && !this.isEndOfLog
  }

  // The starts of the segments that it removed.
  get removed() {
    return this.change && this.change.d || []
  }

  // Whether the caller heard that it was done.
  get isDone() {
    return this.kind === CALL && this.heard === this.answer && !/^(refused|stopped|not opened|dropped)/.test(this.heard)
  }
}

function replaced(list, at, item) {
  const copy = list.slice()
  copy[at] = item
  return copy
}

function freshWorld(run) {
  const node = { isUp: true, promised: '0', promisedTo: -1, promisedAt: 0, writer: '0', committed: '0', open: '', segments: [] }
  const writer = { epoch: '', phase: 'idle', segment: '', acked: '', position: '', round: 0 }
  const writers = run.actors.filter(name => name !== 'ops')
  return { nodes: Array(run.nodeCount).fill(node), writers: writers.map(() => writer) }
}

// A node after what a step changed of it.
function changedNode(node, step) {
  const { p, w, c, o, u, s, d } = step.change
  const now = { ...node }
  if (p !== undefined) Object.assign(now, { promised: String(p), promisedTo: step.actor, promisedAt: step.number })
  if (w !== undefined) now.writer = String(w)
  if (c !== undefined) now.committed = String(c)
  if (o !== undefined) now.open = o === 0 ? '' : String(o)
  if (u !== undefined) now.isUp = u === 1
  if (d) now.segments = node.segments.filter(segment => !d.includes(segment.start))
  if (s) now.segments = withSegment(node.segments, s, step)
  return now
}

// Segments stand in the order of their starts.
function withSegment(segments, [start, end, epoch, kind], step) {
  const name = String(start), count = Number(BigInt(end) - BigInt(start)) + 1
  let at = segments.length
  while (at > 0 && isLess(name, segments[at - 1].start)) at--
  const old = at > 0 && segments[at - 1].start === name ? segments[at - 1] : null
  if (old && old.count === count && old.kind === kind && old.epoch === String(epoch)) return segments
  const segment = { start: name, epoch: String(epoch), kind, count, edits: editsAfter(step, old, name, count) }
  const now = segments.slice()
  now.splice(old ? at - 1 : at, old ? 1 : 0, segment)
  return now
}

// The bodies of a segment, as far as requests tell them. A batch goes to the end of a list that the segments before and after share.
function editsAfter(step, old, start, count) {
  const what = step.words[0], isBatch = what === 'journal'
  if (!isBatch && what !== 'accept') return old && count ? old.edits : []
  const edits = isBatch && old ? old.edits : [], from = isBatch ? Number(BigInt(step.words[5]) - BigInt(start)) : 0
  const [front, back] = bodiesOf(step.asked, isBatch ? 6 : 5)
  front.forEach((body, k) => { edits[from + k] = body })
  back.forEach((body, k) => { edits[count - back.length + k] = body })
  return edits
}

// The bodies behind the first words of a request or an answer; of one that was shortened those in front and those at the end.
function bodiesOf(text, before) {
  const [front, , back] = text.split(/ ?\[(\d+) characters\] ?/)
  const first = front.split(' ').slice(before)
  return back === undefined ? [first, []] : [first.slice(0, -1), back.split(' ').slice(1)]
}

// A writer after a call or a result of its own.
function movedWriter(writer, step, round) {
  const [what, second, third] = step.words
  if (step.kind === CALL) {
    const now = { ...writer, round }
    if (what === 'state' && step.number === round) Object.assign(now, { phase: 'taking', epoch: '', segment: '', acked: '' })
    if (what === 'new') now.epoch = second
    if (what === 'start') now.segment = step.words[4]
    return now
  }
  if (step.kind !== RESULT) return writer
  const now = { ...writer, round: 0 }
  if (what === 'takeover' && !/^\d+$/.test(second)) return { ...now, phase: 'stopped' }
  if (what === 'takeover') return { ...now, phase: 'active', epoch: second, segment: third }
  if (what === 'acked') return { ...now, acked: step.answer.split(' ')[1] }
  if (what === 'aborted' || second === 'aborted') return { ...now, phase: 'stopped' }
  if (what === 'roll' && /^\d+$/.test(second)) return { ...now, segment: second }
  if (/^(tail|checkpoint|reload)$/.test(what) && /^\d+$/.test(second)) return { ...now, position: second }
  if (what === 'close' && /^\d+$/.test(second)) return { ...now, phase: 'closed', segment: '' }
  return now
}
