'use strict'
// How long a client is missed that is cut off and comes back at once, by what is done to its record when it is cut off.
// node returns.js

const { pass } = require('./clock')
const { Hub } = require('./hub')
const {
  framesOf, given, messageOf, peerOf, providerOf, reconnect, recordOf, recordWords, updateIn, updateOf
} = require('./peer')

const client = 2

// Lets the hub take the presence updates that a provider has sent.
const deliver = async (hub, provider) => {
  const frames = provider.ws.sent.flatMap(framesOf).filter(([tag]) => tag === 1)
  provider.ws.sent = []
  for (const frame of frames) await hub.apply(updateIn(frame))
}

// Cuts a connection, and counts the seconds until the hub shows the client again, 120 at the most.
const cut = async (title, { leaves, comesBack = async () => {} }) => {
  const hub = await Hub.fresh(1)
  const peer = peerOf(client)
  const provider = providerOf(peer)
  peer.setLocalState('here')
  await deliver(hub, provider)
  await leaves(hub)
  await reconnect(provider)
  await deliver(hub, provider)
  console.log(title)
  const [atPeer, atHub] = [recordOf(peer, client), await hub.show(client)].map(recordWords)
  console.log(`  the client is back with ${atPeer}, the hub holds ${atHub}`)
  await comesBack(hub, provider)
  let seconds = 0
  for (; seconds < 120 && (await hub.show(client)).text === null; seconds++) {
    pass(1000)
    await deliver(hub, provider)
  }
  console.log(`  the hub shows it after ${seconds} s, ${recordWords(await hub.show(client))}`)
  provider.destroy()
  peer.destroy()
  hub.end()
}

const remove = (hub) => hub.remove(client)
const nullAtItsClock = async (hub) => hub.apply(updateOf([[client, (await hub.show(client)).clock, 'null']]))
const sendNullBack = async (hub, provider) => {
  given(provider, messageOf(await hub.list([client])))
  await deliver(hub, provider)
}

const main = async () => {
  await cut('remove', { leaves: remove })
  await cut('null at the held clock', { leaves: nullAtItsClock })
  await cut('remove, and that null sent to who comes back', { leaves: remove, comesBack: sendNullBack })
  await cut('null at the held clock, and sent to who comes back', { leaves: nullAtItsClock, comesBack: sendNullBack })
}

main()
