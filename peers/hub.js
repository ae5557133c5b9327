'use strict'
// Hubs of the library, each driven through a program built of hub.c, which HUB names. A call that is refused throws.

const { spawn } = require('child_process')
const { createInterface } = require('readline')

const toHex = (bytes) => Buffer.from(bytes).toString('hex')
const fromHex = (digits) => new Uint8Array(Buffer.from(digits, 'hex'))

class Refused extends Error {
  constructor (call, answer) {
    super(`${call} is refused with ${answer.fault}`)
    Object.assign(this, answer)
  }
}

class Hub {
  // A fresh hub of this own client, with its clock at a reading in milliseconds.
  static async fresh (own, reading = 0) {
    const hub = new Hub()
    await hub.beginAnew(own, reading)
    return hub
  }

  constructor () {
    this.asked = []
    this.program = spawn(process.env.HUB, { stdio: ['pipe', 'pipe', 'inherit'] })
    createInterface({ input: this.program.stdout }).on('line', (line) => this.hear(JSON.parse(line)))
  }

  // Answers the oldest call that waits.
  hear (answer) {
    const { call, resolve, reject } = this.asked.shift()
    if (answer.bytes !== undefined) answer.bytes = fromHex(answer.bytes)
    if (answer.fault === 0) resolve(answer)
    else reject(new Refused(call, answer))
  }

  call (...words) {
    const call = words.join(' ')
    return new Promise((resolve, reject) => {
      this.asked.push({ call, resolve, reject })
      this.program.stdin.write(`${call}\n`)
    })
  }

  beginAnew (own, reading = 0) { return this.call('new', own, reading) }
  clock (reading) { return this.call('clock', reading) }
  handle (bytes) { return this.call('handle', toHex(bytes)) }
  apply (update) { return this.call('apply', toHex(update)) }
  set (text) { return this.call('set', toHex(text)) }
  clean () { return this.call('clean') }
  remove (client) { return this.call('remove', client) }
  async start () { return (await this.call('start')).bytes }
  async list (clients) { return (await this.call('list', clients.join(','))).bytes }

  // What is held of a client: its clock, the time of its last change and its text or null; undefined where nothing is.
  async show (client) {
    const { held, live, clock, time, bytes } = await this.call('show', client)
    return held ? { clock, time, text: live ? Buffer.from(bytes).toString() : null } : undefined
  }

  end () { this.program.stdin.end() }
}

// What a call is answered with, also where it is refused.
const tried = (call) => call.catch((refusal) => {
  if (refusal instanceof Refused) return refusal
  throw refusal
})

// What came of a handle, in words.
const handledWords = ({ fault, wire, messages, place, bytes }) => {
  const refusal = wire > 0 ? `refusal ${fault} with ${wire}` : fault > 0 ? `refusal ${fault}` : 'no refusal'
  return `${refusal}, messages ${messages}, place ${place}, replies ${toHex(bytes) || '-'}`
}

module.exports = { Hub, fromHex, handledWords, toHex, tried }
