// What is shown of a step: the sentence, a card for each writer and each node, and the calls of the round as lines between them.

const $ = id => document.getElementById(id)

// An element with a class and what stands in it: texts, elements, and nothing for what is empty.
function make(tag, className, ...inside) {
  const element = document.createElement(tag)
  if (className) element.className = className
  element.append(...inside.filter(item => item !== '' && item !== null && item !== undefined && item !== false))
  return element
}

const SHOWN_SEGMENTS = 3
const SHOWN_EDITS = 8
const MOST_ACROSS = 5
// What gets higher with what it shows.
const GROWING = ['story', 'said', 'writers', 'nodes']

class View {
  constructor(run) {
    this.run = run
    this.heights = {}
    document.title = run.title
    $('title').textContent = run.title
    $('about').textContent = run.about
    $('stage').style.setProperty('--writers', Math.min(run.writerCount, 4))
    $('stage').style.setProperty('--across', Math.ceil(run.nodeCount / Math.ceil(run.nodeCount / MOST_ACROSS)))
    this.writers = this.cards('writers', run.writerCount)
    this.nodes = this.cards('nodes', run.nodeCount)
    this.drawKey()
    this.narrow = matchMedia('(max-width: 760px)')
    addEventListener('resize', () => this.resize())
    this.fit()
  }

  cards(id, count) {
    const cards = Array.from({ length: count }, () => make('li', 'card'))
    $(id).replaceChildren(...cards)
    return cards
  }

  // Shows a step.
  show(number) {
    const { run } = this
    this.number = number
    this.step = number ? run.step(number) : null
    this.before = run.worldAt(Math.max(number - 1, 0))
    this.after = run.worldAt(number)
    this.round = this.roundShown()
    this.calls = this.round.filter(call => call.number <= number)
    this.colour = this.step ? run.colourOf(run.epochOf(this.step, this.after)) : 'e9'
    this.drawSaid()
    this.writers.forEach((card, k) => this.drawWriter(card, k))
    this.nodes.forEach((card, k) => this.drawNode(card, k))
    this.keepHeights()
    this.drawWires()
    if (number === 0) scrollTo(0, 0)
    else if (this.step.node) this.nodes[this.step.node - 1].scrollIntoView({ block: 'nearest' })
  }

  // The round of a call; of a result that round whose result it is.
  roundShown() {
    const { run, step } = this
    if (step && step.kind === CALL) return run.roundOf(step.number)
    const first = step && step.kind === RESULT ? this.before.writers[step.actor].round : 0
    return first ? run.roundOf(first) : []
  }

  // What once was so high stays so, so that nothing jumps as one steps.
  keepHeights() {
    for (const id of GROWING) {
      const height = $(id).offsetHeight
      if (height > (this.heights[id] || 0)) {
        this.heights[id] = height
        $(id).style.minHeight = `${height}px`
      }
    }
  }

  // Many nodes, and those on a narrow screen, are drawn in less room.
  fit() {
    document.body.classList.toggle('compact', this.narrow.matches || this.run.nodeCount > MOST_ACROSS)
  }

  resize() {
    this.fit()
    this.heights = {}
    for (const id of GROWING) $(id).style.minHeight = ''
    this.keepHeights()
    this.drawWires()
  }

  drawSaid() {
    const { heading, says, means, raw, isBad } = this.run.tell(this.number)
    $('said').className = `${this.colour}${isBad ? ' bad' : ''}`
    $('heading').textContent = heading
    $('says').replaceChildren(...parts(says))
    $('means').replaceChildren(...parts(means))
    $('raw').textContent = raw
    $('story').textContent = this.run.storyAt(this.number)
    $('story').hidden = !$('story').textContent
  }

  drawWriter(card, k) {
    const { run } = this, name = run.actors[k], writer = this.after.writers[k], was = this.before.writers[k]
    const isHere = this.step && this.step.actor === k
    const colour = writer.epoch ? run.colourOf(writer.epoch) : 'e9'
    card.className = `card ${colour}${isHere ? ' asks' : ''}`
    const named = writer.phase === 'taking' ? `asks for epoch ${writer.epoch}` : `epoch ${writer.epoch}`
    const epoch = writer.epoch ? make('span', 'chip', named) : make('span', 'chip none', 'no epoch')
    mark(epoch, writer.epoch !== was.epoch && writer.epoch !== '')
    const isUnaware = writer.phase !== 'stopped' && make('span', 'long', ', and doesn’t know it')
    const fenced = run.isFenced(this.after, writer) && make('span', 'fenced', ' · fenced', isUnaware)
    const [phase, why] = phaseInWords(writer)
    const state = make('p', 'state', phase, why && make('span', 'long', why), fenced)
    mark(state, writer.phase !== was.phase)
    card.replaceChildren(make('h2', '', `${run.role} ${name}`, epoch), state, this.roundOf(writer, isHere))
  }

  // What a writer waits for: each node's answer in its round, and how many it needs.
  roundOf(writer, isHere) {
    const { run } = this, line = make('div', 'round'), upTo = this.number
    const calls = writer.round ? run.roundOf(writer.round) : isHere ? this.round : []
    if (calls.length === 0) {
      line.append(writer.acked ? `acknowledged up to edit ${writer.acked}` : writer.position ? `has replayed the log up to txid ${writer.position}` : '')
      return line
    }
    const request = calls[0].asked, isVote = !/^(fetch|read|manifest)/.test(request)
    const pips = make('span', 'pips', ...calls.map(call => pipOf(call, call.number <= upTo)))
    const inWords = call => `node ${call.node} ${call.number > upTo ? 'not asked yet' : call.isDone ? 'answered' : 'no'}`
    pips.setAttribute('role', 'img')
    pips.setAttribute('aria-label', calls.map(inWords).join(', '))
    const heard = calls.filter(call => call.number <= upTo && call.isDone).length, isOver = calls[calls.length - 1].number <= upTo
    const vote = heard >= run.majority ? 'a majority' : isOver ? 'no majority' : `waits for ${run.majority} of ${run.nodeCount}`
    line.append(make('span', '', wishInShort(request)), pips, make('span', '', isVote ? vote : ''))
    return line
  }

  drawNode(card, k) {
    const { run } = this, node = this.after.nodes[k], was = this.before.nodes[k], number = k + 1
    const call = this.calls.find(one => one.node === number), isHere = this.step && this.step.node === number
    card.className = `card ${this.colour}${isHere ? ' asked' : ''}${node.isUp ? '' : ' down'}`
    const promise = this.promiseChip(node)
    mark(promise, node.promised !== was.promised)
    const title = make('h2', '', `node ${number}`, !node.isUp && make('b', 'isdown', ' is down'))
    mark(title, node.isUp !== was.isUp)
    card.replaceChildren(title, promise, this.answerOf(call, isHere, number), this.segmentsOf(node, was), this.metaOf(node, was))
  }

  promiseChip(node) {
    if (node.promised === '0') return make('span', 'chip none', 'no promise')
    const owner = node.promisedTo < 0 ? '' : ` to ${this.run.actors[node.promisedTo]}`
    return make('span', `chip ${this.run.colourOf(node.promised)}`, `promised ${node.promised}${owner}`)
  }

  // What the node answered in this round; of a step that is no call what became of it there.
  answerOf(call, isHere, number) {
    const { run, step, round } = this
    if (isHere && step.kind === LATE) call = step
    if (isHere && step.kind === OPERATOR) return make('p', 'answer here', step.asked)
    if (!call) {
      const isAhead = round.some(one => one.node === number), isLeft = round.length > 0 && /^(journal|finalize)/.test(round[0].asked)
      return make('p', 'answer', isAhead ? '…' : isLeft ? 'left out since it missed something' : '')
    }
    const at = call.number, before = run.worldAt(at - 1).nodes[number - 1], after = run.worldAt(at).nodes[number - 1]
    const { sign, text, kind } = outcome(run, call, before, after)
    return make('p', `answer ${kind}${isHere ? ' here' : ''}`, make('b', '', sign), call.kind === LATE ? ` late copy: ${text}` : ` ${text}`)
  }

  segmentsOf(node, was) {
    const box = make('div', 'segments'), hidden = node.segments.slice(0, -SHOWN_SEGMENTS)
    if (hidden.length > 0) {
      const reach = range(hidden[0].start, endOf(hidden[hidden.length - 1]))
      box.append(make('p', 'more', `${counted(hidden.length, 'earlier segment')}, ${reach}`))
    }
    const removed = node === was ? [] : was.segments.filter(segment => this.step.removed.includes(segment.start))
    if (removed.length > 0) box.append(mark(make('p', 'more', `removed ${list(removed.map(one => range(one.start, endOf(one))))}`), true))
    for (const segment of node.segments.slice(-SHOWN_SEGMENTS)) {
      box.append(this.segmentOf(segment, was.segments.find(one => one.start === segment.start), node))
    }
    if (node.segments.length === 0) box.append(make('p', 'more', 'holds nothing'))
    return box
  }

  segmentOf(segment, old, node) {
    const isOpen = node.open === segment.start
    const kind = { f: 'final', a: 'accepted', p: isOpen ? 'open' : 'in progress' }[segment.kind]
    const name = segment.count === 0 ? `segment ${segment.start}` : `${range(segment.start, endOf(segment))}`
    const head = make('h3', '', make('b', '', name), make('span', '', `${kind}, epoch ${segment.epoch}`))
    const box = make('div', `segment ${segment.kind} ${this.run.colourOf(segment.epoch)}`, head, this.editsOf(segment, old))
    if (old !== segment) mark(old && old.count !== segment.count && old.kind === segment.kind && old.epoch === segment.epoch ? null : box, true)
    return box
  }

  // The edits: the first two and the last ones, and how many stand between.
  editsOf(segment, old) {
    const row = make('div', 'edits'), { count } = segment, isReplaced = old && old.epoch !== segment.epoch
    const tail = count > SHOWN_EDITS ? count - SHOWN_EDITS + 3 : 2
    if (count === 0) return make('p', 'more', 'begun, empty')
    for (let k = 0; k < count; k++) {
      if (k === 2 && tail > 2) {
        row.append(make('span', 'edit fold', `… ${tail - 2} …`))
        k = tail
      }
      const edit = make('span', 'edit', make('i', '', plus(segment.start, k)), editText(this.run, segment.edits[k]))
      mark(edit, !old || k >= old.count && !isReplaced)
      row.append(edit)
    }
    return row
  }

  metaOf(node, was) {
    const item = (name, value, isNew, className = '') => mark(make('span', className, `${name} ${value}`), isNew)
    const meta = make('p', 'meta')
    if (node.writer !== '0') meta.append(item('writer epoch', node.writer, node.writer !== was.writer, 'long'))
    if (node.committed !== '0') meta.append(item('committed', node.committed, node.committed !== was.committed))
    return meta
  }

  // The calls of the round, from the writer's card to the nodes'. On a narrow screen there are none.
  drawWires() {
    const wires = $('wires')
    wires.replaceChildren()
    if (!this.step || this.step.actor >= this.run.writerCount || getComputedStyle(wires).display === 'none') return
    const calls = this.step.kind === LATE ? [this.step] : this.calls
    for (const call of calls) this.drawWire(wires, call, call === this.step)
  }

  drawWire(wires, call, isHere) {
    const [from, to] = [this.writers[call.actor], this.nodes[call.node - 1]].map(placeOf), here = isHere ? ' here' : ''
    if (to.row > 0) return
    const isDropped = call.heard === 'dropped', isMute = /^(muted|silent)$/.test(call.heard)
    const isLate = call.kind === LATE
    const middle = (from.bottom + to.top) / 2
    const curve = [[from.middle, from.bottom], [from.middle, middle], [to.middle, middle], [to.middle, to.top - 7]]
    const { front, point } = cutCurve(curve, isDropped ? 0.55 : 0.5), [start, ...rest] = isDropped ? front : curve
    const line = shape('path', `wire ${this.colour}${here} ${isDropped ? 'lost' : isLate ? 'late' : 'good'}`, { d: `M${start}C${rest.join(' ')}` })
    if (!isDropped && !isLate) line.setAttribute('pathLength', 1)
    wires.append(line)
    if (isDropped || isMute) wires.append(shape('path', 'cross', { d: `M${point[0] - 6} ${point[1] - 6}l12 12m0 -12l-12 12` }))
    if (!isDropped) wires.append(shape('path', `head ${this.colour}${here}`, { d: `M${to.middle - 6} ${to.top - 10}h12l-6 9z` }))
  }

  // The legend: what the borders of segments mean, and the epochs' colours.
  drawKey() {
    const { run } = this
    const colours = run.epochs.slice(0, 8).map(epoch => swatch(`f ${run.colourOf(epoch)}`, `epoch ${epoch}`))
    if (run.epochs.length > 8) colours.push(make('span', '', `… ${run.epochs.length} epochs; colours come again after 8`))
    const first = run.epochs.length ? run.colourOf(run.epochs[0]) : 'e9'
    const kinds = [['p', 'in progress'], ['a', 'accepted in a recovery'], ['f', 'final']].map(([kind, text]) => swatch(`${kind} ${first}`, text))
    $('key').replaceChildren(...colours, ...kinds, make('span', '', mark(make('span', 'swatch'), true), 'just changed'))
  }
}

// A line of the legend.
function swatch(kind, text) {
  return make('span', '', make('i', `segment swatch ${kind}`), text)
}

// Where a card stands on the stage.
function placeOf(card) {
  const list = card.parentElement, top = list.offsetTop + card.offsetTop
  return { middle: list.offsetLeft + card.offsetLeft + card.offsetWidth / 2, top, bottom: top + card.offsetHeight,
    row: card.offsetTop - list.firstElementChild.offsetTop }
}

// A curve's front part up to a share of it, and the point there.
function cutCurve(points, share) {
  const front = [points[0]]
  while (points.length > 1) {
    points = points.slice(1).map((point, k) => point.map((end, axis) => points[k][axis] + share * (end - points[k][axis])))
    front.push(points[0])
  }
  return { front, point: points[0] }
}

// Marks what just changed.
function mark(element, isNew) {
  if (element && isNew) element.classList.add('new')
  return element
}

// Texts, and links to other steps.
function parts(pieces) {
  return pieces.map(piece => {
    if (typeof piece === 'string') return piece
    const link = make('a', '', piece.text)
    link.href = `#step=${piece.step}`
    return link
  })
}

function pipOf(call, isMade) {
  const kind = !isMade ? 'wait' : call.isDone ? 'good' : 'bad'
  return make('span', `pip ${kind}`, `${call.node}${{ wait: '…', good: '✓', bad: '✕' }[kind]}`)
}

function shape(tag, className, attributes) {
  const element = document.createElementNS('http://www.w3.org/2000/svg', tag)
  element.setAttribute('class', className)
  for (const [name, value] of Object.entries(attributes)) element.setAttribute(name, value)
  return element
}
