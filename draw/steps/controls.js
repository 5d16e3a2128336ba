// Moving through the steps: buttons, the slider, keys, a clock, and the address.

// So long after a step its number stands in the address: a browser refuses many changes in a row.
const ADDRESS_AFTER = 250

class Controls {
  constructor(run, view) {
    this.run = run
    this.view = view
    this.clock = 0
    this.listen()
    this.measure()
    this.go(this.fromAddress())
  }

  // Takes note of how many steps there are.
  measure() {
    this.shownLength = this.run.length
    $('slider').max = this.run.length
    this.drawBands()
  }

  // There are more steps than before; who is at the last one goes on to the new last one.
  grow(isFollowing) {
    this.measure()
    this.go(isFollowing ? this.run.length : this.number)
  }

  // Goes to a step.
  go(number) {
    this.number = Math.max(0, Math.min(this.run.length, number))
    this.view.show(this.number)
    this.showPlace()
    clearTimeout(this.address)
    this.address = setTimeout(() => history.replaceState(null, '', `#step=${this.number}`), ADDRESS_AFTER)
  }

  showPlace() {
    const { number, run } = this, heading = run.headingAt(number)
    $('slider').value = number
    $('slider').setAttribute('aria-valuetext', `step ${number} of ${run.length}${heading ? `: ${heading}` : ''}`)
    $('link').replaceChildren(make('span', 'long', 'step '), `${number} of ${run.length}`)
    $('link').href = `#step=${number}`
    for (const id of ['first', 'back', 'line-back']) $(id).disabled = number === 0
    for (const id of ['last', 'on', 'line-on']) $(id).disabled = number === run.length
    for (const kind of ['takeover', 'loss', 'refusal']) $(`to-${kind}`).disabled = !run.markFrom(kind, number, false)
  }

  fromAddress() {
    const found = /^#step=(\d{1,9})$/.exec(location.hash)
    return found ? Number(found[1]) : 0
  }

  // Goes on by itself, or stops.
  play(doesPlay) {
    clearTimeout(this.clock)
    this.plays = doesPlay
    $('play').classList.toggle('plays', doesPlay)
    $('play').setAttribute('aria-label', doesPlay ? 'Pause' : 'Play')
    if (doesPlay) this.clock = setTimeout(() => this.tick(), Number($('speed').value))
  }

  tick() {
    if (this.number < this.run.length) this.go(this.number + 1)
    this.play(this.number < this.run.length)
  }

  // A step that a reader takes ends the playing.
  take(number) {
    this.play(false)
    this.go(number)
  }

  lineFrom(isBack) {
    return this.run.markFrom('line', this.number, isBack) || (isBack ? 0 : this.run.length)
  }

  listen() {
    const moves = {
      first: () => 0, back: () => this.number - 1, on: () => this.number + 1, last: () => this.run.length,
      'line-back': () => this.lineFrom(true), 'line-on': () => this.lineFrom(false)
    }
    for (const [id, target] of Object.entries(moves)) $(id).addEventListener('click', () => this.take(target()))
    for (const kind of ['takeover', 'loss', 'refusal'])
      $(`to-${kind}`).addEventListener('click', () => this.take(this.run.markFrom(kind, this.number, false) || this.number))
    $('play').addEventListener('click', () => this.toggle())
    $('speed').addEventListener('change', () => this.play(this.plays))
    $('slider').addEventListener('input', () => this.take(Number($('slider').value)))
    addEventListener('hashchange', () => { if (this.fromAddress() !== this.number) this.take(this.fromAddress()) })
    addEventListener('keydown', event => this.press(event, moves))
  }

  // At the end playing begins anew.
  toggle() {
    if (!this.plays && this.number === this.run.length) this.go(0)
    this.play(!this.plays)
  }

  press(event, moves) {
    if (event.altKey || event.ctrlKey || event.metaKey || event.target.tagName === 'SELECT') return
    const names = { ArrowRight: event.shiftKey ? 'line-on' : 'on', ArrowLeft: event.shiftKey ? 'line-back' : 'back', Home: 'first', End: 'last' }
    if (event.key === ' ' && !/^(BUTTON|A)$/.test(event.target.tagName)) this.toggle()
    else if (names[event.key]) this.take(moves[names[event.key]]())
    else return
    event.preventDefault()
  }

  // Above the slider: whose epoch it is, and where something was lost. What falls on one point of the screen is one stroke.
  drawBands() {
    const { run } = this, place = number => Math.round(1000 * number / Math.max(run.length, 1))
    const bands = run.reigns().map(({ from, epoch }) => ({ from: place(from), colour: run.colourOf(epoch) }))
    const seen = bands.filter((band, k) => !bands[k + 1] || bands[k + 1].from > band.from)
    const drawn = seen.map(({ from, colour }, k) => {
      const to = k + 1 < seen.length ? seen[k + 1].from : 1000
      return shape('rect', `band ${colour}`, { x: from, y: 7, width: to - from, height: 5 })
    })
    const strokes = [...new Set(run.marks.loss.map(place))].map(at => `M${at} 0V6`).join('')
    drawn.push(shape('path', 'loss', { d: strokes || 'M0 0', 'vector-effect': 'non-scaling-stroke', 'stroke-width': 2 }))
    $('bands').replaceChildren(...drawn)
  }
}
