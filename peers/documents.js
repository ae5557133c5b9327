'use strict'
// A hub's document is a count board and no Yjs document: what becomes of the updates of one at the other.
// node documents.js

require('./clock')
const Y = require('yjs')
const encoding = require('lib0/encoding')
const { writeSyncStep1, writeSyncStep2, writeUpdate } = require('y-protocols/sync')
const { Random, stateFor } = require('./chance')
const { Hub, fromHex, handledWords, toHex, tried } = require('./hub')
const { bytesOf, given, givenWords, peerOf, providerOf } = require('./peer')

// A sync message whose rest y-protocols writes.
const syncMessage = (write, what) => bytesOf((encoder) => {
  encoding.writeVarUint(encoder, 0)
  write(encoder, what)
})

// A document that so many clients have written to.
const writtenBy = (clients) => {
  const doc = new Y.Doc()
  for (let client = 1; client <= clients; client++) {
    doc.clientID = client
    doc.getText('').insert(0, 'x')
  }
  return doc
}

const atHub = async (hub, what, message) => {
  const told = await tried(hub.handle(message))
  const shown = message.length > 40 ? `${message.length} bytes` : toHex(message)
  console.log(`  ${what}, ${shown}: ${handledWords(told)}`)
}

// Gives the update in a step 2 to Yjs, and the message to a provider.
const atYjs = (what, message) => {
  const peer = peerOf(2)
  const provider = providerOf(peer)
  let outcome = 'takes it'
  try {
    Y.applyUpdate(peer.doc, message.slice(3))
  } catch (error) {
    outcome = `throws ${error.message}`
  }
  const words = givenWords(given(provider, message))
  console.log(`  ${what}, ${toHex(message)}`)
  console.log(`    Yjs: ${outcome}`)
  console.log(`    provider: ${words}; it is ${provider.synced ? 'synced' : 'not synced'}`)
  provider.destroy()
  peer.destroy()
}

// An edit of some document by chance, and the update that Yjs writes of it, in one of its two encodings.
const editedBy = (random, docs) => {
  const doc = random.of(docs)
  const updates = []
  const keep = (update) => updates.push(update)
  const event = random.of(['update', 'updateV2'])
  doc.on(event, keep)
  doc.transact(() => {
    for (let left = random.below(4); left >= 0; left--) editOnce(random, doc)
  })
  doc.off(event, keep)
  return updates
}

const editOnce = (random, doc) => {
  const text = doc.getText('text')
  const map = doc.getMap('map')
  switch (random.below(4)) {
    case 0: return text.insert(random.below(text.length + 1), JSON.stringify(stateFor(random)))
    case 1: return text.delete(0, random.below(text.length + 1))
    case 2: return map.set(String(random.below(5)), stateFor(random))
    default: return map.delete(String(random.below(5)))
  }
}

// Gives a hub what Yjs writes of edits by chance, and counts the refusals, 0 where an update is taken.
const atRandom = async (hub, rounds) => {
  const random = new Random(1)
  const docs = [new Y.Doc(), new Y.Doc(), new Y.Doc()]
  docs.forEach((doc, i) => { doc.clientID = [1, 300, 2 ** 32 - 1][i] })
  const counts = {}
  for (let i = 0; i < rounds; i++) {
    const wholes = random.oneIn(10) ? docs.map((doc) => Y.encodeStateAsUpdate(doc)) : []
    for (const update of [...editedBy(random, docs), ...wholes]) {
      const { fault } = await tried(hub.handle(syncMessage(writeUpdate, update)))
      counts[fault] = (counts[fault] || 0) + 1
    }
    for (const update of wholes) docs.forEach((doc) => Y.applyUpdate(doc, update))
  }
  for (const [fault, n] of Object.entries(counts)) console.log(`  updates ${n}, refusal ${fault}`)
}

const main = async () => {
  const hub = await Hub.fresh(1)
  const [empty, one, many] = [0, 1, 65].map(writtenBy)
  console.log('what Yjs writes, at the hub')
  await atHub(hub, 'step 1', syncMessage(writeSyncStep1, one))
  await atHub(hub, 'step 1 of 65 clients', syncMessage(writeSyncStep1, many))
  await atHub(hub, 'step 2 of an empty document', syncMessage(writeSyncStep2, empty))
  await atHub(hub, 'step 2', syncMessage(writeSyncStep2, one))
  await atHub(hub, 'update', syncMessage(writeUpdate, Y.encodeStateAsUpdate(one)))
  console.log('what Yjs writes of edits at random, at the hub')
  await atRandom(hub, 1000)
  console.log('what the hub writes, at Yjs')
  const step1 = syncMessage(writeSyncStep1, empty)
  atYjs('step 2 of an empty board', (await hub.handle(step1)).bytes)
  await hub.handle(fromHex('000203010502'))
  atYjs('step 2', (await hub.handle(step1)).bytes)
  hub.end()
}

main()
