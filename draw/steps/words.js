// Requests, answers and refusals in words. A text with links to other steps is a list of texts and links.

const linkTo = (step, text) => ({ step, text })

const list = items => items.length < 2 ? items.join('') : `${items.slice(0, -1).join(', ')} and ${items[items.length - 1]}`
const nodesInWords = numbers => `${numbers.length === 1 ? 'node' : 'nodes'} ${list(numbers)}`
const upper = text => text.charAt(0).toUpperCase() + text.slice(1)
const counted = (number, noun) => `${number} ${noun}${Number(number) === 1 ? '' : 's'}`
const edits = (first, last) => first === last ? `edit ${first}` : `edits ${range(first, last)}`

// How many bodies a request or an answer has behind its first words; of one that was shortened that isn't known.
const bodyCount = (text, before) => / characters\] /.test(text) ? 0 : text.split(' ').length - before

// Of a request what it asks a node to do, as what comes behind "asks node 1".
function wish(request) {
  const words = request.split(' ')
  switch (words[0]) {
    case 'state': return 'which epoch it promised'
    case 'new': return `to promise epoch ${words[1]}`
    case 'start': return `to begin segment ${words[4]}`
    case 'journal': return `to store ${editsOf(request)}`
    case 'finalize': return `to end segment ${words[4]} at txid ${words[5]}`
    case 'prepare': return `what it holds of segment ${words[4]}`
    case 'fetch': return `for its edits from ${words[5]} on`
    case 'accept': return `to take segment ${words[4]} as the best node holds it`
    case 'purge': return `to remove segments below txid ${words[4]}`
    case 'read': return `for edits from txid ${words[1]} on`
    case 'manifest': return 'for a list of its segments'
    default: return request
  }
}

// The edits of a batch.
function editsOf(request) {
  return editsFrom(request.split(' ')[5], bodyCount(request, 6))
}

const editsFrom = (first, many) => many ? edits(first, plus(first, many - 1)) : `edits from ${first} on`

const nameOf = (run, actor) => run.actors[actor]

// The owner of a node's promise, with the step at which it was given.
function promiseOf(run, node) {
  const owner = node.promisedTo < 0 ? '' : ` to ${nameOf(run, node.promisedTo)}`
  return [`epoch ${node.promised}${owner}`, ...(node.promisedAt ? [' (', linkTo(node.promisedAt, `step ${node.promisedAt}`), ')'] : [])]
}

// Why a node refuses, by the refusal's number and its field.
const REFUSALS = {
  1: () => 'it is down',
  2: limit => `a number or a size is past its limit, ${limit}`,
  4: serial => `it has seen request ${serial} of this epoch already, and this one is no later`,
  5: epoch => `its last segment was begun under epoch ${epoch}`,
  6: () => 'no segment is open there',
  7: start => `the segment that is open there is ${start}`,
  8: txid => `its next edit is ${txid}`,
  9: end => `that segment ended there, at txid ${end}`,
  10: end => `that segment has edits there, up to ${end}`,
  11: () => 'it holds no edit of that segment',
  12: epoch => `it holds that segment of epoch ${epoch}`,
  13: end => `that segment ends there at txid ${end}`,
  14: first => `what it serves begins at txid ${first}`,
  15: last => `it has nothing there: its last txid before is ${last}`,
  16: () => 'its disk failed; it is down from now on',
  17: () => 'it lacks memory',
  18: () => 'a file of its isn’t in its format'
}

function refusal(run, step, node) {
  const [, number, , field] = step.answer.split(' ')
  return number === '3' ? ['it promised ', ...promiseOf(run, node)] : [REFUSALS[number](field)]
}

// What a node does for a request that it answers, as what comes behind its name; `segment` is the request's, as the node has it then.
function deed(run, step, before, segment) {
  const { words, answer } = step
  switch (words[0]) {
    case 'state': return answer === 'state 0' ? ['has promised nothing yet'] : ['has promised ', ...promiseOf(run, before)]
    case 'new': return [`promises epoch ${words[1]} to ${nameOf(run, step.actor)}; ${newestIn(answer)}`]
    case 'start': return [`begins segment ${words[4]}`]
    case 'journal': return [`stores ${editsOf(step.asked)}${meaning(step.asked)}`]
    case 'finalize': return [`ends segment ${words[4]} at txid ${words[5]}`]
    case 'prepare': return [`holds ${heldIn(answer, words[4])}`]
    case 'fetch':
    case 'read': return [`gives ${editsFrom(answer.split(' ')[1], bodyCount(answer, 2))}`]
    case 'accept': return [`takes ${segment ? edits(words[4], endOf(segment)) : 'them'} as segment ${words[4]}`]
    case 'purge': return [step.removed.length ? `removes ${counted(step.removed.length, 'segment')}` : 'has nothing to remove']
    case 'manifest': return ['lists its segments']
    default: return [`answers ${answer}`]
  }
}

const newestIn = answer => answer === 'new none' ? 'it holds no edit yet' : `its newest segment is ${answer.split(' ')[1]}`

// What an answer to a prepare tells.
function heldIn(answer, asked) {
  const [, , , start, kind, epoch, isAccepted, end] = answer.split(' ')
  if (start === 'none') return `nothing of segment ${asked}`
  const how = kind === 'final' ? 'final, of' : isAccepted === 'yes' ? 'accepted under' : 'in progress, written under'
  return `${edits(start, end)} of segment ${start}, ${how} epoch ${epoch}`
}

// The two bodies that have a meaning of their own.
function meaning(request) {
  const bodies = request.split(' ').slice(6).join(' ')
  return bodies === '18' ? ', the mark that begins a segment' : bodies === '17' ? ', the mark that ends a segment' : ''
}

// In a few words what became of a call at its node.
function outcome(run, step, before, after) {
  const bad = text => ({ sign: '✕', text, kind: 'bad' })
  if (step.heard === 'dropped') return bad('lost on the way')
  if (step.isStopped) return bad('stopped inside')
  if (step.heard === 'muted') return bad('done, reply lost')
  if (step.isEndOfLog) return { sign: '–', text: 'has nothing later', kind: 'quiet' }
  const [word, number, ...name] = step.answer.split(' ')
  if (word === 'refused') return bad(number === '1' ? 'is down' : `refuses: ${number === '3' ? `promised ${before.promised}` : name.join(' ')}`)
  const told = deed(run, step, before, segmentAsked(step, after)).map(part => part.text || part).join('')
  return { sign: '✓', text: told.replace(/[,;] .*| \(.*/, ''), kind: 'good' }
}

// The segment that a request names, at a node.
const segmentAsked = (step, node) => node.segments.find(segment => segment.start === step.words[4])

// How a writer stands, and why.
function phaseInWords(writer) {
  switch (writer.phase) {
    case 'taking': return ['takes over']
    case 'active': return [writer.segment ? `writes segment ${writer.segment}` : 'writes']
    case 'closed': return ['has ended its segment']
    case 'stopped': return ['stopped', ': its last round was aborted']
    default: return ['hasn’t taken over']
  }
}

// What a round asks, in a word or two.
function wishInShort(request) {
  const words = request.split(' ')
  switch (words[0]) {
    case 'state': return 'asks for promises'
    case 'new': return `proposes epoch ${words[1]}`
    case 'journal': return `logs ${editsOf(request)}`
    case 'finalize': return `ends segment ${words[4]}`
    case 'start': return `begins segment ${words[4]}`
    case 'purge': return `purges below ${words[4]}`
    case 'read': return `reads from txid ${words[1]} on`
    case 'fetch': return `fetches from txid ${words[5]} on`
    default: return `${words[0]}s segment ${words[4]}`
  }
}

// What stands in an edit's cell.
function editText(run, body) {
  if (body === undefined) return ''
  if (body === '18') return 'begin'
  if (body === '17') return 'end'
  return run.edits[body] || (body.length > 8 ? `${body.slice(0, 6)}…` : body)
}
