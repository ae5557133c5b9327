'use strict'
// Presence updates at random, given to a hub and to an Awareness of y-protocols alike: what both then hold, tell and
// write is compared, and each difference counted by its kind. One that is of no known kind ends the script.
// node random.js [UPDATES [SEED ..]]

const { setTime } = require('./clock')
const assert = require('assert').strict
const { isDeepStrictEqual } = require('util')
const { encodeAwarenessUpdate } = require('y-protocols/awareness')
const { Random, clients, own, stateFor, textFor } = require('./chance')
const { Hub, toHex } = require('./hub')
const { applied, messageOf, peerOf, recordOf, updateOf } = require('./peer')

const UPDATES_OF_A_TALK = 100
const NEWCOMER = 999
const STEP_1_OF_NOTHING = '00000100'

const counts = {
  updates: 0,
  entries: 0,
  'records compared': 0,
  'clients in lists compared': 0,
  'written lists, byte for byte': 0,
  'starts and answers to a query, byte for byte': 0,
  'records that a newcomer took': 0
}
const kinds = {}
const countKind = (kind) => { kinds[kind] = (kinds[kind] || 0) + 1 }

// In what the two records of a client differ: a kind, or nothing.
const kindOfRecords = (client, atHub, atPeer) => {
  if (isDeepStrictEqual(atHub, atPeer)) return undefined
  assert(atHub !== undefined)
  if (atPeer === undefined && atHub.clock === 0) return `record, ${atHub.text === null ? 'null' : 'text'} at clock 0`
  assert(atPeer !== undefined)
  assert.equal(atHub.clock, atPeer.clock)
  if (client === own && atHub.text === null && atPeer.text === null) return 'record, time of an own null'
  assert.equal(atHub.time, atPeer.time)
  assert.deepEqual(JSON.parse(atHub.text), JSON.parse(atPeer.text))
  return 'record, other spelling'
}

// Why a list of one side alone may have a client: a kind, or nothing.
const kindOfLists = (list, side, client, { entries, before, after }) => {
  const mine = entries.filter((entry) => entry[0] === client)
  const { hub, peer } = before.get(client)
  if (peer === undefined && (hub !== undefined || mine.some((entry) => entry[1] === 0))) {
    if (side === 'hub' || list === 'added') return 'lists, client at clock 0'
  }
  if (client === own && mine.some((entry) => entry[2] === 'null') && after.get(client).hub.text !== null) {
    if (['hub updated', 'peer removed'].includes(`${side} ${list}`)) return 'lists, own record raised'
  }
  const texts = mine.map((entry) => entry[2]).concat(hub?.text ?? [])
  const same = (one, other) => one !== other && isDeepStrictEqual(JSON.parse(one), JSON.parse(other))
  if (`${side} ${list}` === 'hub changed' && texts.some((one) => texts.some((other) => same(one, other)))) {
    return 'lists, other spelling'
  }
  return undefined
}

// A hub and a peer of the same own client that are given the same.
class Talk {
  constructor (hub, random) {
    this.hub = hub
    this.random = random
    this.now = random.below(1e6)
    this.peer = peerOf(own)
    this.clients = random.oneIn(4) ? clients : clients.slice(0, 12)
    this.records = new Map([own, ...this.clients].map((client) => [client, {}]))
    this.traits = { zeros: random.oneIn(2), spellings: random.oneIn(2), quiet: random.oneIn(4) }
  }

  async run (updates) {
    await this.hub.beginAnew(own, this.now)
    await this.setOwn({})
    if (this.traits.quiet) await this.cleanOwn()
    for (let i = 0; i < updates; i++) {
      if (!this.traits.quiet && this.random.oneIn(10)) await this.setOwn(stateFor(this.random))
      if (this.random.oneIn(20)) await this.cleanOwn()
      await this.update()
    }
    await this.look([...this.records.keys()])
    this.peer.destroy()
  }

  async setOwn (state) {
    setTime(this.now)
    this.peer.setLocalState(state)
    await this.hub.set(JSON.stringify(state))
    await this.look([own])
  }

  async cleanOwn () {
    setTime(this.now)
    this.peer.setLocalState(null)
    await this.hub.clean()
    await this.look([own])
  }

  // Looks anew at what both hold of clients.
  async look (looked) {
    await Promise.all(looked.map(async (client) => {
      const record = { hub: await this.hub.show(client), peer: recordOf(this.peer, client) }
      record.kind = kindOfRecords(client, record.hub, record.peer)
      this.records.set(client, record)
      counts['records compared']++
      if (record.kind !== undefined) countKind(record.kind)
    }))
  }

  // An entry about the clock that is held, some below it.
  entry () {
    const client = this.random.oneIn(8) ? own : this.random.of(this.clients)
    const { hub } = this.records.get(client)
    const clock = (hub?.clock ?? 0) + this.random.of([-2, -1, 0, 0, 1, 1, 1, 2, 9])
    const text = this.random.oneIn(4) ? 'null' : textFor(this.random, this.traits.spellings)
    return [client, Math.max(clock, this.traits.zeros && client !== own ? 0 : 1), text]
  }

  async update () {
    const entries = Array.from({ length: this.random.of([0, 1, 1, 1, 1, 2, 2, 3, 5, 30]) }, () => this.entry())
    const bytes = updateOf(entries)
    const before = new Map(this.records)
    this.now += this.random.below(4000)
    setTime(this.now)
    await this.hub.clock(this.now)
    const byHandle = this.random.oneIn(4)
    const atHub = await (byHandle ? this.hub.handle(messageOf(bytes)) : this.hub.apply(bytes))
    const atPeer = applied(this.peer, bytes)
    assert.equal(atPeer.thrown, undefined)
    await this.look([...new Set([own, ...entries.map((entry) => entry[0])])])
    if (!byHandle) this.compareLists(atHub, atPeer, { entries, before, after: this.records })
    await this.compareBytes()
    counts.updates++
    counts.entries += entries.length
  }

  compareLists (atHub, atPeer, change) {
    for (const list of ['added', 'updated', 'changed', 'removed']) {
      for (const client of new Set([...atHub[list], ...atPeer[list]])) {
        counts['clients in lists compared']++
        if (atHub[list].includes(client) && atPeer[list].includes(client)) continue
        const side = atHub[list].includes(client) ? 'hub' : 'peer'
        const kind = kindOfLists(list, side, client, change)
        assert(kind !== undefined, `client ${client} stands in ${list} of the ${side} alone`)
        countKind(kind)
      }
    }
  }

  // Compares what both write of the clients whose records are alike, and what the hub writes of all that are live.
  async compareBytes () {
    const held = [...this.records].filter(([, { hub }]) => hub !== undefined).sort(([one], [other]) => one - other)
    const live = held.filter(([, { hub }]) => hub.text !== null)
    const alike = held.filter(([, { kind }]) => kind === undefined || kind === 'record, time of an own null')
    const ids = (records) => records.map(([client]) => client)
    const [ofAlike, ofLive, start, { bytes: answer }] = await Promise.all(
      [this.hub.list(ids(alike)), this.hub.list(ids(live)), this.hub.start(), this.hub.handle([3])])
    assert.equal(toHex(ofAlike), toHex(encodeAwarenessUpdate(this.peer, ids(alike))))
    assert.equal(toHex(answer), toHex(messageOf(ofLive)))
    assert.equal(toHex(start), STEP_1_OF_NOTHING + toHex(answer))
    counts['written lists, byte for byte']++
    if (live.every((record) => alike.includes(record))) {
      assert.equal(toHex(ofLive), toHex(encodeAwarenessUpdate(this.peer, ids(live))))
      counts['starts and answers to a query, byte for byte']++
    }
    this.tellNewcomer(ofLive, live)
  }

  // A newcomer that is given an update of all live records shows what the hub shows.
  tellNewcomer (update, live) {
    const newcomer = peerOf(NEWCOMER)
    assert.equal(applied(newcomer, update).thrown, undefined)
    for (const [client, { hub }] of live.filter(([, { hub }]) => hub.clock > 0)) {
      assert.deepEqual(newcomer.states.get(client), JSON.parse(hub.text))
      counts['records that a newcomer took']++
    }
    newcomer.destroy()
  }
}

// Talks until so many updates were given.
const talk = async (hub, random, updates) => {
  for (let left = updates; left > 0; left -= UPDATES_OF_A_TALK) {
    await new Talk(hub, random).run(Math.min(UPDATES_OF_A_TALK, left))
  }
}

const main = async (updates = 2000, ...seeds) => {
  const hub = await Hub.fresh(own)
  for (const seed of seeds.length > 0 ? seeds : [1]) await talk(hub, new Random(seed), updates)
  hub.end()
  for (const [what, n] of Object.entries(counts)) console.log(`${what}: ${n}`)
  console.log('differences')
  for (const [kind, n] of Object.entries(kinds).sort()) console.log(`  ${kind}: ${n}`)
}

main(...process.argv.slice(2).map(Number))
