// The page over a running cluster: what its keeper tells (`./qjm cluster status --json`) stands in a file beside the page that is written
// anew, and is read again and again. A step is a status that differs from the one before.

const READ_EACH = 1000
// After so many seconds without a new file the page says so.
const OLD_AFTER = 5

// A run of statuses, as Run is one of a report.
class Watch {
  constructor(data) {
    this.title = data.title || 'A running cluster'
    this.role = 'lead'
    this.epochs = []
    this.statuses = []
    this.told = []
    this.seen = 0
    this.marks = { takeover: [], loss: [], refusal: [], line: [] }
  }

  get length() {
    return Math.max(this.statuses.length - 1, 0)
  }

  get about() {
    return 'Read only: what the keeper of the cluster observes.'
  }

  // Takes the statuses of a file, each with its number; those that were taken are left alone. Answers whether there were new ones.
  take({ statuses, from }) {
    const fresh = statuses.slice(Math.max(this.seen - from, 0))
    this.seen = Math.max(this.seen, from + statuses.length)
    for (const status of fresh) {
      const before = this.statuses[this.statuses.length - 1]
      this.statuses.push(status)
      this.told.push(before ? changesBetween(before, status) : [summary(status)])
      this.note(before, status, this.length)
    }
    return fresh.length > 0
  }

  note(before, status, number) {
    for (const epoch of [status.epoch, ...(status.nodes || []).map(node => node.promise)].map(String))
      if (/^[1-9]\d*$/.test(epoch) && !this.epochs.includes(epoch)) this.epochs.push(epoch)
    this.epochs.sort((one, other) => isLess(one, other) ? -1 : 1)
    if (!before) return
    if (status.active && status.epoch !== before.epoch) this.marks.takeover.push(number)
    if (status.fault || status.answering < before.answering || before.active && !status.active) this.marks.loss.push(number)
  }

  // The last status up to a step that tells of nodes, and the one before it.
  statusAt(number) {
    while (number > 0 && this.statuses[number].fault) number--
    return this.statuses[number]
  }

  tell(number) {
    const [first, ...others] = this.told[number], status = this.statuses[number]
    const heading = [status.at, status.health].filter(Boolean).join(', '), raw = (status.says || []).join(' ')
    return { heading, says: [first], means: [others.join(' ')], raw, isBad: Boolean(status.fault) || status.health === 'down' }
  }

  headingAt(number) {
    return this.statuses[number].at || ''
  }

  markFrom(kind, number, isBack) {
    if (kind === 'line') return isBack ? number - 1 : number + 1
    return Run.prototype.markFrom.call(this, kind, number, isBack)
  }

  storyAt() {
    return ''
  }

  colourOf(epoch) {
    return Run.prototype.colourOf.call(this, epoch)
  }

  reigns() {
    const all = this.statuses.map((status, from) => ({ from, epoch: String(status.active ? status.epoch : '') }))
    return all.filter(({ epoch }, k) => k === 0 || epoch !== all[k - 1].epoch)
  }
}

const isAnswering = node => node.state === 'answering'

// A status in a sentence.
function summary(status) {
  if (status.fault) return `${upper(status.fault)}.`
  const who = status.active ? `Lead ${status.active} is active under epoch ${status.epoch}` : 'No lead is active'
  return `${who}, and ${status.answering} of ${counted(status.nodes.length, 'node')} answer.`
}

// What is other in a status than in the one before, a sentence each.
function changesBetween(before, status) {
  if (status.fault || before.fault) return [summary(status)]
  const told = [], isTaken = status.active !== before.active || status.epoch !== before.epoch
  if (status.active && isTaken) told.push(`Lead ${status.active} is active now, under epoch ${status.epoch}.`)
  if (!status.active && before.active) told.push(`No lead is active: ${before.active} was.`)
  status.leads.forEach((lead, k) => told.push(...leadChanges(before.leads[k] || lead, lead)))
  told.push(...nodeChanges(before.nodes, status.nodes))
  if (status.auto !== before.auto) told.push(`Automatic failover is ${status.auto ? 'on' : 'off'}.`)
  return told.length ? told : [summary(status)]
}

// The nodes of which the same is new are told together.
function nodeChanges(before, nodes) {
  const numbers = new Map()
  const add = (node, one, many) => numbers.set(one, { many, at: [...(numbers.get(one) || { at: [] }).at, node.number] })
  nodes.forEach((node, k) => {
    const was = before[k] || node, why = node.why ? `: ${node.why}` : ''
    if (node.state !== was.state) isAnswering(node) ? add(node, 'answers', 'answer') : add(node, `is ${node.state}${why}`, `are ${node.state}${why}`)
    if (node.promise !== was.promise && node.promise) add(node, `promised epoch ${node.promise}`, `promised epoch ${node.promise}`)
    if (node.counts !== was.counts) node.counts ? add(node, 'counts', 'count') : add(node, 'doesn’t count', 'don’t count')
    if (node.last !== was.last) add(node, `holds edits up to ${node.last}`, `hold edits up to ${node.last}`)
  })
  return [...numbers].map(([one, { many, at }]) => `${upper(nodesInWords(at))} ${at.length > 1 ? many : one}.`)
}

function leadChanges(was, lead) {
  const told = []
  if (lead.state !== was.state) told.push(`Lead ${lead.name} is ${lead.state}${lead.why ? `: ${lead.why}` : ''}.`)
  if (lead.acked > was.acked) told.push(`Lead ${lead.name} acknowledged ${counted(lead.acked - was.acked, 'edit')}.`)
  return told
}

// Cards of a status: of each node and lead what was observed.
class LiveView extends View {
  constructor(watch) {
    super(Object.assign(watch, { nodeCount: watch.statusAt(0).nodes.length, writerCount: watch.statusAt(0).leads.length }))
  }

  show(number) {
    this.number = number
    this.status = this.run.statusAt(number)
    this.was = this.run.statusAt(Math.max(number - 1, 0))
    this.colour = this.run.colourOf(String(this.status.epoch))
    this.drawSaid()
    this.writers.forEach((card, k) => this.drawLead(card, this.status.leads[k], this.was.leads[k]))
    this.nodes.forEach((card, k) => this.drawObserved(card, this.status.nodes[k], this.was.nodes[k]))
    this.drawKey()
    this.keepHeights()
  }

  drawWires() {}

  drawLead(card, lead, was) {
    card.className = `card ${this.colour}${lead.active ? ' asks' : ''}${lead.state === 'ready' ? '' : ' down'}`
    const epoch = lead.active ? this.chip(lead.epoch, `active, epoch ${lead.epoch}`) : make('span', 'chip none', 'not active')
    const state = make('p', 'state', lead.state, lead.why && `: ${lead.why}`)
    const counts = lead.active && `counts ${lead.round.length ? nodesInWords(lead.round) : 'no node'}`
    const told = [`acknowledged ${lead.acked}`, counts, lead.last && `last: ${lead.last.replace(/^= /, '')}`]
    const meta = make('p', 'meta', ...told.filter(Boolean).map(text => make('span', '', text)))
    mark(epoch, lead.active !== was.active || lead.active && lead.epoch !== was.epoch)
    mark(state, lead.state !== was.state)
    card.replaceChildren(make('h2', '', `lead ${lead.name}`, epoch), state, meta)
  }

  drawObserved(card, node, was) {
    card.className = `card ${this.colour}${isAnswering(node) ? '' : ' down'}`
    const promise = node.promise ? this.chip(node.promise, `promised ${node.promise}`)
      : make('span', 'chip none', node.promise === null ? 'promise unknown' : 'no promise')
    const [kind, sign] = isAnswering(node) ? ['good', '✓'] : ['bad', '✕']
    const state = make('p', `answer ${kind}`, make('b', '', sign), ` ${node.state}${node.why ? `: ${node.why}` : ''}`)
    mark(promise, node.promise !== was.promise)
    mark(state, node.state !== was.state)
    const meta = make('p', 'meta', make('span', '', node.counts ? 'counts' : 'doesn’t count'), node.lag ? make('span', '', `${node.lag} behind`) : '')
    card.replaceChildren(make('h2', '', `node ${node.number}`), promise, state, this.heldBy(node, was), meta)
  }

  // What a node holds, of which the newest segment is known.
  heldBy(node, was) {
    const box = make('div', 'segments')
    if (node.listed === null || node.segments === 0) {
      box.append(make('p', 'more', node.listed === null ? 'what it holds is unknown' : 'holds nothing'))
      return box
    }
    const isOpen = /progress/.test(node.newest), start = /^\d*/.exec(node.newest)[0]
    if (node.segments > 1) box.append(make('p', 'more', `${counted(node.segments - 1, 'earlier segment')}`))
    const head = make('h3', '', make('b', '', range(start, String(node.last))), make('span', '', isOpen ? 'in progress' : 'final'))
    box.append(mark(make('div', `segment ${isOpen ? 'p' : 'f'} e9`, head), node.last !== was.last))
    return box
  }

  chip(epoch, text) {
    return make('span', `chip ${this.run.colourOf(String(epoch))}`, text)
  }

  drawKey() {
    $('key').replaceChildren(...this.run.epochs.slice(-8).map(epoch => swatch(`f ${this.run.colourOf(epoch)}`, `epoch ${epoch}`)))
  }
}

// Reads the file beside the page again and again, and shows what is new in it where the last step is shown.
function startLive(data) {
  const watch = new Watch(data)
  let controls = null
  const showAge = at => {
    const age = Math.round(Date.now() / 1000 - at)
    $('about').textContent = age > OLD_AFTER ? `Nothing new was written for ${age} s.` : `${watch.about} Written anew each second.`
  }
  globalThis.qjmStatuses = file => {
    const isNew = watch.take(file), isFollowing = !controls || controls.number >= controls.shownLength
    if (!watch.statuses.some(status => !status.fault)) return showAge(file.at)
    if (!controls) controls = new Controls(watch, new LiveView(watch))
    if (isNew) controls.grow(isFollowing)
    showAge(file.at)
  }
  const read = () => {
    const script = document.createElement('script')
    script.src = `${data.live}?${Date.now()}`
    script.onload = script.onerror = () => { script.remove(); setTimeout(read, READ_EACH) }
    document.head.append(script)
  }
  $('title').textContent = watch.title
  for (const id of ['line-back', 'line-on', 'to-refusal']) $(id).hidden = true
  read()
}
