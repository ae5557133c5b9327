'use strict'
// Who is dropped for saying nothing: an Awareness of y-protocols drops whom it has not heard of for 30 s, and a
// provider of y-websocket a connection on which it has heard nothing for 30 s. The time is that of clock.js.
// node silence.js

const { pass } = require('./clock')
const { encodeAwarenessUpdate } = require('y-protocols/awareness')
const { Hub } = require('./hub')
const { applied, listWords, peerOf, providerOf, recordWords, updateOf } = require('./peer')

const own = 1
const browser = 2
const other = 3

// A browser of whose every update the hub is told, and what the hub lists then.
const connected = (hub) => {
  const peer = peerOf(browser)
  peer.done = hub.apply(encodeAwarenessUpdate(peer, [browser]))
  peer.on('update', ({ added, updated, removed }, origin) => {
    if (origin === 'hub') return
    const update = encodeAwarenessUpdate(peer, [...added, ...updated, ...removed])
    peer.done = peer.done.then(() => hub.apply(update)).then((lists) => {
      if (origin === 'timeout') console.log(`  the browser drops who is silent; the hub lists ${listWords(lists)}`)
    })
  })
  return peer
}

const look = async (seconds, hub, peer) => {
  await peer.done
  const records = await Promise.all([own, browser, other].map((client) => hub.show(client)))
  const held = [own, browser, other].map((client, i) => `${client}: ${recordWords(records[i])}`)
  console.log(`  after ${seconds} s the browser shows ${[...peer.getStates().keys()].sort().join(', ')}`)
  console.log(`    the hub holds ${held.join(', ')}`)
}

const silent = async () => {
  console.log('client 1, the hub\'s own, and client 3 say once what they show; client 2 is a browser')
  const hub = await Hub.fresh(own)
  const peer = connected(hub)
  await hub.set('"hub"')
  await hub.apply(updateOf([[other, 1, '"other"']]))
  applied(peer, await hub.list([own, other]))
  pass(27000)
  await look(27, hub, peer)
  pass(3000)
  await look(30, hub, peer)
  const raised = await hub.list([own])
  console.log(`  the hub sends the one that it lists as updated; the browser tells ${listWords(applied(peer, raised))}`)
  const again = await hub.apply(updateOf([[other, 2, '"other"']]))
  console.log(`  client 3 says the same at clock 2; the hub lists ${listWords(again)}`)
  peer.destroy()
  await peer.done
  hub.end()
}

const renewed = async () => {
  console.log('the same, but both say it again every 15 s')
  const hub = await Hub.fresh(own)
  const peer = connected(hub)
  for (let clock = 1; clock <= 8; clock++) {
    await hub.set('"hub"')
    await hub.apply(updateOf([[other, clock, '"other"']]))
    applied(peer, await hub.list([own, other]))
    pass(15000)
  }
  await look(120, hub, peer)
  peer.destroy()
  await peer.done
  hub.end()
}

const lost = async () => {
  console.log('a browser that is lost without a word')
  const hub = await Hub.fresh(own)
  await hub.apply(updateOf([[browser, 0, '{}']]))
  await hub.clock(3600000)
  const record = await hub.show(browser)
  console.log(`  an hour later the hub holds 2: ${recordWords(record)}, of time ${record.time}`)
  hub.end()
}

const unheard = () => {
  console.log('a connection on which nothing comes')
  const awareness = peerOf(browser)
  const provider = providerOf(awareness)
  let closed = false
  provider.on('connection-close', () => { closed = true })
  for (const seconds of [30, 33]) {
    pass(seconds === 30 ? 30000 : 3000)
    console.log(`  after ${seconds} s the provider has ${closed ? 'closed it' : 'kept it'}`)
  }
  provider.destroy()
  awareness.destroy()
}

const main = async () => {
  await silent()
  await renewed()
  await lost()
  unheard()
}

main()
