'use strict'
// What becomes of two messages that stand in one WebSocket frame, and of a message that a frame cuts short.
// node frames.js

const WebSocket = require('ws')
const Y = require('yjs')
const { WebsocketProvider } = require('y-websocket')
const { getYDoc, setupWSConnection } = require('y-websocket/bin/utils')
const { Hub, handledWords, toHex, tried } = require('./hub')
const { framesOf, given, givenWords, messageOf, peerOf, providerOf, updateOf } = require('./peer')

const own = 1
const last = 99
// What is sent after all else: frames come in order, so once this client is seen the others have been read.
const ending = messageOf(updateOf([[last, 1, '{}']]))

const isSeen = (awareness, client) => awareness.getStates().has(client)
const endOf = (awareness) => new Promise((resolve) => {
  awareness.on('update', () => { if (isSeen(awareness, last)) resolve() })
})
const once = (emitter, event) => new Promise((resolve) => emitter.on(event, resolve))

const listening = async (onConnection) => {
  const server = new WebSocket.Server({ port: 0, host: '127.0.0.1' })
  server.on('connection', onConnection)
  await once(server, 'listening')
  return { server, url: `ws://127.0.0.1:${server.address().port}` }
}

// Whether y-websocket's provider, which is sent frames, then shows the hub's own client.
const seenByProvider = async (frames) => {
  const { server, url } = await listening((socket) => [...frames, ending].forEach((frame) => socket.send(frame)))
  const doc = new Y.Doc()
  const provider = new WebsocketProvider(url, 'room', doc, { WebSocketPolyfill: WebSocket, disableBc: true })
  await endOf(provider.awareness)
  const seen = isSeen(provider.awareness, own)
  provider.destroy()
  doc.destroy()
  server.close()
  return seen
}

// The same of y-websocket's own server.
const seenByServer = async (frames) => {
  const { server, url } = await listening(setupWSConnection)
  const room = `frames-${frames.length}`
  const { awareness } = getYDoc(room)
  const socket = new WebSocket(`${url}/${room}`)
  await once(socket, 'open')
  const end = endOf(awareness)
  for (const frame of [...frames, ending]) socket.send(frame)
  await end
  const seen = isSeen(awareness, own)
  socket.terminate()
  await once(socket, 'close')
  server.close()
  awareness.destroy()
  return seen
}

const together = async (hub) => {
  const start = await hub.start()
  console.log(`start is ${toHex(start)}`)
  for (const frames of [[start], framesOf(start)]) {
    const seen = { provider: await seenByProvider(frames), server: await seenByServer(frames) }
    const words = (who) => `the ${who} ${seen[who] ? 'sees' : 'does not see'} the hub`
    console.log(`  frames: ${frames.length}; ${words('provider')}, ${words('server')}`)
  }
}

const cut = async (hub) => {
  console.log('a message that is cut short in a frame, its rest in the next one, and a query')
  const awareness = peerOf(2)
  const provider = providerOf(awareness)
  for (const frame of [[1, 8, 1], [7, 3, 4, 0x22, 0x69, 0x6e, 0x22], [3]]) {
    console.log(`  ${toHex(frame)}`)
    console.log(`    hub: ${handledWords(await tried(hub.handle(frame)))}`)
    console.log(`    provider: ${givenWords(given(provider, new Uint8Array(frame)))}`)
  }
  provider.destroy()
  awareness.destroy()
}

const main = async () => {
  const hub = await Hub.fresh(own)
  await hub.set('"hub"')
  await together(hub)
  await cut(hub)
  hub.end()
}

main()
