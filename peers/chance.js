'use strict'
// What random.js draws: numbers from a seed, clients, and states as JSON in one spelling or another.

const own = 1
// Ids at each length of a number, and as many more as a hub has room for.
const clients = [0, 2, 3, 127, 128, 300, 16384, 2097152, 2 ** 31, 2 ** 32 - 1, 2 ** 52, 2 ** 53 - 1]
for (let client = 1000; clients.length < 63; client += 7) clients.push(client)

// Words of 32 bits by shifts of 13, 17 and 5.
class Random {
  constructor (seed) { this.word = seed >>> 0 || 1 }

  next () {
    this.word ^= this.word << 13
    this.word ^= this.word >>> 17
    this.word ^= this.word << 5
    return this.word >>> 0
  }

  below (end) { return this.next() % end }
  oneIn (n) { return this.below(n) === 0 }
  of (choices) { return choices[this.below(choices.length)] }
}

const keys = ['file', 'name', 'line', 'user', 'é', 'שם', '']
const words = [
  '', 'a.txt', 'naïve', '日本語', 'שלום', 'مرحبا', '\u202eleft\u202c', '👩‍🚀', '🏳️‍🌈', 'e\u0301', '𝄞𝄞𝄞',
  '"', '\\', '</b>', '\n\t', '\u0000', '\u007f', '\ufeff', '\uffff', '\ud800', '\u2028', 'null'
]
const numbers = [0, 1, -1, 0.5, 1e21, 1e-7, 2 ** 53 - 1]

const valueFor = (random, depth) => {
  const kind = random.below(depth > 0 ? 8 : 6)
  if (kind < 3) return random.of(words)
  if (kind === 3) return random.of(numbers)
  if (kind === 4) return random.of([true, false])
  if (kind === 5) return null
  if (kind === 6) return Array.from({ length: random.below(4) }, () => valueFor(random, depth - 1))
  return objectFor(random, depth - 1)
}

const objectFor = (random, depth) => {
  const object = {}
  for (let left = random.below(4); left > 0; left--) object[random.of(keys)] = valueFor(random, depth)
  return object
}

// A state as applications show it, of at most 256 bytes.
const stateFor = (random) => {
  for (;;) {
    const state = random.oneIn(9) ? random.of(words.slice(1)) : objectFor(random, 3)
    if (Buffer.byteLength(JSON.stringify(state)) <= 200) return state
  }
}

const escaped = (unit) => '\\u' + unit.charCodeAt(0).toString(16).padStart(4, '0')
const turned = (state) => Object.fromEntries(Object.entries(state).reverse())

// The same state spelled otherwise than JSON.stringify does, now and then.
const respelled = (random, state) => {
  switch (random.below(4)) {
    case 0: return JSON.stringify(state).replace(/[^ -~]/g, escaped)
    case 1: return ` ${JSON.stringify(state, null, 1)}`
    case 2: return typeof state === 'object' ? JSON.stringify(turned(state)) : JSON.stringify(state)
    default: return JSON.stringify(state)
  }
}

// A text of a state, also spelled otherwise where that is wanted.
const textFor = (random, otherwise) => {
  for (;;) {
    const state = stateFor(random)
    const text = otherwise ? respelled(random, state) : JSON.stringify(state)
    if (Buffer.byteLength(text) <= 256) return text
  }
}

module.exports = { Random, clients, own, stateFor, textFor }
