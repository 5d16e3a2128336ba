// What happens at a step, and what that means, in sentences.

function sentence(run, number) {
  if (number === 0) return beginning(run)
  const step = run.step(number), before = run.worldAt(number - 1), after = run.worldAt(number)
  switch (step.kind) {
    case CALL: return ofCall(run, step, before.nodes[step.node - 1], after.nodes[step.node - 1])
    case LATE: return ofLateCopy(run, step, before.nodes[step.node - 1], after.nodes[step.node - 1])
    case OPERATOR: return ofOperator(step)
    default: return ofResult(run, step, before)
  }
}

const saying = (says, ...means) => ({ says: [says].flat(), means: [means.filter(Boolean).join(' ')] })

function beginning(run) {
  return saying(`${counted(run.nodeCount, 'fresh node')}: nothing is promised, and nothing is stored.`,
    `A majority is ${run.majority} of them. Press the arrow to the right, or play.`)
}

// ## A call, and what its node does

function ofCall(run, step, before, after) {
  const writer = nameOf(run, step.actor), node = `Node ${step.node}`, [what, first] = step.words
  const asks = `${under(step)}${writer} asks node ${step.node} ${wish(step.asked)}`
  if (step.heard === 'dropped') return saying(`${writer}’s call to node ${step.node} is lost on the way.`, `${asks}; the node never hears of it.`)
  if (step.isStopped) return ofStopped(step, asks)
  if (step.isEndOfLog) return saying(`${node} serves nothing from txid ${first} on.`, `So ${writer} asks the next node, or is at the log’s end.`)
  if (/^refused 1 /.test(step.answer)) return saying(`${node} is down.`, `${asks}.`)
  const lost = step.heard === 'muted' && `Its reply is lost: ${writer} hears nothing, and can’t know.`
  if (/^refused/.test(step.answer)) return saying([`${node} refuses: `, ...refusal(run, step, before), '.'], `${asks}.`, lost, ruleOf(step))
  const fenced = what === 'new' && before.promisedTo >= 0 && before.promisedTo !== step.actor &&
    `It had promised epoch ${before.promised} to ${nameOf(run, before.promisedTo)}, which it refuses from here on.`
  const why = run.roundFirst[step.number] === step.number && purpose(step, writer)
  return saying([`${node} `, ...deed(run, step, before, segmentAsked(step, after)), '.'], `${asks}.`, lost, fenced, why)
}

const under = step => step.epoch && step.words[0] !== 'new' ? `Under epoch ${step.epoch} ` : ''

// By which rule an epoch is refused.
function ruleOf(step) {
  if (!/^refused 3 /.test(step.answer)) return ''
  return `A node that promised an epoch refuses all ${step.words[0] === 'new' ? 'that aren’t higher' : 'lower ones'}.`
}

// What a request is for, said once in each of its rounds.
function purpose(step, writer) {
  switch (step.words[0]) {
    case 'state': return `The greatest promise and one more is the epoch that ${writer} will ask for.`
    case 'new': return 'A node that promises an epoch refuses all lower ones from then on: so an old writer is fenced.'
    case 'prepare': return 'The best answer is taken: final before in progress, then the greater epoch, then the longer one.'
    case 'fetch': return 'Its answer was the best. What it holds may have been acknowledged, so it has to outlive the old writer.'
    case 'accept': return 'All nodes are to hold the same, under the new epoch.'
    case 'finalize': return 'A segment that ended is never changed again.'
    case 'start': return `From here on epoch ${step.epoch} writes.`
    default: return ''
  }
}

function ofStopped(step, asks) {
  const kept = /^stopped (\d+)/.exec(step.answer)
  const stands = kept && `${kept[1] === '0' ? 'Nothing' : counted(kept[1], 'effect')} of it ${kept[1] > 1 ? 'stand' : 'stands'}.`
  return saying(`Node ${step.node} stops inside the call, and is down.`, `${asks}.`, stands, 'Nobody hears an answer.')
}

function ofLateCopy(run, step, before, after) {
  const copy = `a late copy of an old call of ${nameOf(run, step.actor)}`, node = `Node ${step.node}`
  const about = `The call asked ${wish(step.asked)}${step.epoch ? `, under epoch ${step.epoch}` : ''}; nobody waits for this reply.`
  if (/^refused/.test(step.answer)) return { says: [`${node} refuses ${copy}.`], means: ['Why: ', ...refusal(run, step, before), `. ${about}`] }
  if (step.isStopped) return saying(`${node} stops inside ${copy}, and is down.`, about)
  return saying([`By ${copy} node ${step.node} `, ...deed(run, step, before, segmentAsked(step, after)), '.'], about)
}

function ofOperator(step) {
  const [what, calls, effects, choice] = step.words, where = `node ${step.node}`
  if (step.answer !== 'done') {
    return saying(`The operator asks for a ${what} of ${where}: ${step.answer === 'idle' ? 'there is nothing to do' : step.answer}.`)
  }
  if (what === 'kill') return saying(`${upper(where)} is killed.`, 'What it stored stays on its disk.')
  if (what === 'restart') return saying(`${upper(where)} is up again.`, 'It has what it stored; no segment is open there.')
  const when = `${calls === '1' ? 'At the next call' : `At call ${calls} from now on`} that reaches ${where}`
  if (what === 'stop') return saying(`${when} it will stop, after ${counted(effects, 'effect')}.`)
  const left = { old: 'as they were', new: 'as they were written', a5: 'as other bytes' }[choice]
  return saying(`${when} it will crash, after ${counted(effects, 'disk call')}.`, `Bytes that weren’t synced will be left ${left}.`)
}

// ## A result

// By its first word what is said of it: of the writer, the words behind, and how often it came.
const RESULTS = {
  inactive: (writer, words, times) => `${writer} logs nothing${times}: it holds no open segment until it takes over again.`,
  active: writer => `${writer} is active: only a standby does this.`,
  toolong: (writer, [limit], times) => `${writer}’s edit is too long${times}: the limit is ${limit}.`,
  refused: (writer, [, name], times) => `${writer}’s namespace doesn’t admit the edit${times}: ${name}.`,
  repeated: (writer, [txid]) => `${writer} was given this call before: it is edit ${txid}.`,
  late: () => 'There is no such call of which a copy could arrive.',
  tail: (writer, [to, first]) => to === 'purged' ? keptFrom(writer, first) : `${writer} has replayed the log up to txid ${to}.`,
  checkpoint: (writer, [txid]) => `${writer} saves an image of its namespace, at txid ${txid}.`,
  reload: (writer, [txid]) => `${writer} begins anew${txid === '0' ? ', empty' : ` with its newest image, at txid ${txid}`}.`,
  roll: (writer, [start]) => start === 'inactive' ? nothingOpen(writer) : `${writer} goes on in a new segment, from txid ${start} on.`,
  close: (writer, [last]) => last === 'inactive' ? nothingOpen(writer) : `${writer} has ended its segment at txid ${last}.`,
  purge: (writer, [how]) => how === 'inactive' ? nothingOpen(writer) : `${writer}’s purge is done by a majority.`,
  trim: (writer, [below]) => below === 'inactive' ? nothingOpen(writer) : below === 'noimage' ? `${writer} trims nothing: it has no image.`
    : `Segments below txid ${below} may go: ${writer} has images past them.`
}

const keptFrom = (writer, first) => `${writer} can’t go on: the log that is kept begins at txid ${first}.`
const nothingOpen = writer => `${writer} holds no open segment, so nothing is done.`

function ofResult(run, step, before) {
  const writer = nameOf(run, step.actor), [what, ...words] = step.words, times = step.heard > 1 ? ` (${step.heard} times)` : ''
  if (/\b(aborted|behind)\b/.test(step.asked)) return ofAborted(run, step, before)
  if (what === 'takeover') return ofTakeover(writer, words)
  if (what === 'acked') return ofAcknowledged(writer, words[0], step.answer.split(' ')[1])
  return saying(RESULTS[what](writer, words, times))
}

function ofTakeover(writer, [epoch, txid]) {
  if (epoch === 'limit') return saying(`${writer} can’t take over: a node promised the limit, ${txid}.`)
  if (epoch === 'purged') return saying(keptFrom(writer, txid))
  return saying(`${writer} is the writer, under epoch ${epoch}, from txid ${txid} on.`, 'A majority promised it this epoch.',
    'Any other majority has one of these nodes, so no writer of a lower epoch gets anything acknowledged any more.')
}

function ofAcknowledged(writer, first, last) {
  const [are, them] = first === last ? ['is', 'it'] : ['are', 'them']
  return saying(`${upper(edits(first, last))} ${are} acknowledged.`, `A majority stored ${them} for ${writer}: no later writer can lose ${them}.`)
}

// ## A round that was aborted, and why

function ofAborted(run, step, before) {
  const writer = nameOf(run, step.actor), { words } = step, from = words.findIndex(word => /^(aborted|behind)$/.test(word))
  const isBehind = words[from] === 'behind', causes = words.slice(from + (isBehind ? 2 : 1)), told = causesOf(run, causes, before)
  if (isBehind) return { says: [`${writer} stays behind, at txid ${words[from + 1]}: too few nodes answered.`], means: [...told, '.'] }
  const isFenced = causes.some(word => /^EpochRefused/.test(word)), what = from === 0 ? 'round' : words[0]
  const stored = causes.flatMap((word, k) => word === 'ok' ? [k + 1] : [])
  const rest = stored.length ? `; what ${nodesInWords(stored)} did may last, or not` : ''
  return { says: [`No majority did it, so ${writer}’s ${what} is aborted${isFenced ? `: ${writer} is fenced` : ''}.`],
    means: [...told, `. ${writer} stops until it takes over again${rest}.`] }
}

// The causes of all nodes, those of the same together.
function causesOf(run, words, before) {
  const at = new Map()
  words.forEach((word, k) => at.set(word, [...(at.get(word) || []), k + 1]))
  const told = [...at].flatMap(([word, numbers], k) => [k ? '; ' : '', ...cause(run, word, numbers, before.nodes[numbers[0] - 1])])
  return told.map((part, k) => k === 1 ? upper(part) : part)
}

// A cause at some nodes, of which one is the first.
function cause(run, word, numbers, first) {
  const [name, field] = word.split(':'), who = nodesInWords(numbers), isMany = numbers.length > 1
  if (name === 'ok') return [`${who} did it`]
  if (name === 'silent') return [`${who} ${isMany ? 'weren’t' : 'wasn’t'} heard`]
  if (name === 'outofsync') return [`${who} ${isMany ? 'are' : 'is'} left out`]
  if (name === 'EpochRefused') return [`${who} promised `, ...(field === first.promised ? promiseOf(run, first) : [`epoch ${field}`])]
  return [`${who} refused: ${name}${field ? ` ${field}` : ''}`]
}

// ## The page and a step as a whole

// What the page is about.
function aboutRun(run, note) {
  const counts = `${counted(run.nodeCount, 'node')}, ${counted(run.writerCount, run.role)}, ${counted(run.length, 'step')}.`
  return note ? `${counts} ${note}. So the steps are in the order of epochs.` : counts
}

// All that is said of a step.
function tellStep(run, number) {
  const step = number ? run.step(number) : null
  return { ...sentence(run, number), heading: run.headingAt(number), raw: step ? rawWords(run, step) : '', isBad: step !== null && isBadStep(step) }
}

const isBadStep = step => step.isLost || step.isRefused || step.kind === RESULT && /\b(aborted|behind)\b/.test(step.asked)

// The line of the report that a step is.
function rawWords(run, step) {
  const who = run.actors[step.actor]
  if (step.kind === RESULT) return `${who} = ${step.asked}${step.heard > 1 ? ` .. ${step.answer}` : ''} · line ${step.line} of the report`
  const answer = step.heard === step.answer || !step.answer ? step.heard : `${step.answer} · ${step.heard}`
  return `${who} → node ${step.node}: ${step.kind === LATE ? 'late ' : ''}${step.asked} → ${answer} · line ${step.line}`
}
