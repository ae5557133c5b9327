'use strict'
// Peers of y-protocols and y-websocket, and the bytes that they and a hub give each other.

const Y = require('yjs')
const { Awareness, applyAwarenessUpdate } = require('y-protocols/awareness')
const { WebsocketProvider } = require('y-websocket')
const encoding = require('lib0/encoding')
const decoding = require('lib0/decoding')

// The bytes that are written to an encoder.
const bytesOf = (write) => {
  const encoder = encoding.createEncoder()
  write(encoder)
  return encoding.toUint8Array(encoder)
}

// A presence update of entries [client, clock, text], whatever the texts are.
const updateOf = (entries) => bytesOf((encoder) => {
  encoding.writeVarUint(encoder, entries.length)
  for (const [client, clock, text] of entries) {
    encoding.writeVarUint(encoder, client)
    encoding.writeVarUint(encoder, clock)
    encoding.writeVarString(encoder, text)
  }
})

// The awareness message with a presence update.
const messageOf = (update) => bytesOf((encoder) => {
  encoding.writeVarUint(encoder, 1)
  encoding.writeVarUint8Array(encoder, update)
})

// The messages of sync, awareness and query that bytes hold, each apart, as frames want them.
const framesOf = (bytes) => {
  const decoder = decoding.createDecoder(bytes)
  const frames = []
  while (decoding.hasContent(decoder)) {
    const begin = decoder.pos
    const tag = decoding.readVarUint(decoder)
    if (tag === 0) decoding.readVarUint(decoder)
    if (tag !== 3) decoding.readVarUint8Array(decoder)
    frames.push(bytes.slice(begin, decoder.pos))
  }
  return frames
}

// The presence update in an awareness message.
const updateIn = (message) => {
  const decoder = decoding.createDecoder(message)
  decoding.readVarUint(decoder)
  return decoding.readVarUint8Array(decoder)
}

// An Awareness of this client, which shows {} at clock 0 as every new one does.
const peerOf = (client) => {
  const doc = new Y.Doc()
  doc.clientID = client
  return new Awareness(doc)
}

// The lists that a peer tells of while something is done to it, by the hub's names.
const listsOf = (peer, act) => {
  const lists = { added: [], updated: [], changed: [], removed: [] }
  const onUpdate = ({ added, updated, removed }) => Object.assign(lists, { added, updated, removed })
  const onChange = ({ updated }) => { lists.changed = updated }
  peer.on('update', onUpdate)
  peer.on('change', onChange)
  act()
  peer.off('update', onUpdate)
  peer.off('change', onChange)
  return lists
}

// Gives a peer a presence update, and answers the lists that it tells of, and the name of an error where it throws one.
const applied = (peer, update) => {
  let thrown
  const lists = listsOf(peer, () => {
    try {
      applyAwarenessUpdate(peer, update, 'hub')
    } catch (error) {
      thrown = error.name
    }
  })
  return { ...lists, thrown }
}

// The record that a peer has of a client, in the form of a hub's.
const recordOf = (peer, client) => {
  const meta = peer.meta.get(client)
  if (meta === undefined) return undefined
  const text = peer.states.has(client) ? JSON.stringify(peer.states.get(client)) : null
  return { clock: meta.clock, time: meta.lastUpdated, text }
}

// A WebSocket to nowhere: frames come by hand, through onmessage, and what is sent is kept.
class Socket {
  constructor () { this.sent = [] }
  send (frame) { this.sent.push(frame) }
  close () { this.onclose({}) }
}

// A provider of y-websocket that has just connected by such a socket.
const providerOf = (awareness) => {
  const options = { awareness, WebSocketPolyfill: Socket, disableBc: true }
  const provider = new WebsocketProvider('ws://nowhere', 'room', awareness.doc, options)
  provider.ws.onopen({})
  return provider
}

// Cuts a provider's connection, and waits until it has another.
const reconnect = async (provider) => {
  provider.ws.close()
  while (provider.ws === null) await new Promise((resolve) => setTimeout(resolve, 10))
  provider.ws.onopen({})
}

// What a provider does when a frame comes: the frames that it sends, the errors that it logs, whether it throws.
const given = (provider, frame) => {
  const logged = []
  const { error } = console
  console.error = (words) => logged.push(words)
  provider.ws.sent = []
  let throws = false
  try {
    provider.ws.onmessage({ data: frame })
  } catch {
    throws = true
  }
  console.error = error
  return { sent: provider.ws.sent, logged, throws }
}

// Records, lists and what a provider does, in words.
const recordWords = (record) => {
  if (record === undefined) return 'nothing'
  return `${record.text === null ? 'null' : `\`${record.text}\``} at clock ${record.clock}`
}

const listWords = ({ fault = 0, thrown, ...lists }) => {
  if (fault > 0) return `refusal ${fault}`
  const told = ['added', 'updated', 'changed', 'removed']
    .filter((list) => lists[list].length > 0)
    .map((list) => `${list} ${lists[list].join(' ')}`)
  return [...told, ...(thrown === undefined ? [] : [`throws ${thrown}`])].join(', ') || 'no list'
}

const givenWords = ({ throws, logged, sent }) => [
  ...(throws ? ['throws'] : []),
  ...logged.map((line) => `logs ${line}`),
  ...sent.map((frame) => `sends ${Buffer.from(frame).toString('hex')}`)
].join(', ') || 'does nothing'

module.exports = {
  applied, bytesOf, framesOf, given, givenWords, listWords, listsOf, messageOf, peerOf, providerOf, reconnect, recordOf,
  recordWords, updateIn, updateOf
}
