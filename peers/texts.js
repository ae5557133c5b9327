'use strict'
// Texts that a hub takes and y-protocols does not, and the other way round.
// node texts.js

require('./clock')
const { Hub, toHex, tried } = require('./hub')
const { applied, given, givenWords, listWords, peerOf, providerOf, recordWords, updateOf } = require('./peer')

// Whom a peer shows besides itself.
const othersOf = (peer) => {
  const others = [...peer.getStates().keys()].filter((client) => client !== peer.clientID)
  return others.join(' ') || 'nobody'
}

const noJson = async () => {
  console.log('clients 5, 6 and 7 in one update, of which 6 shows oops')
  const hub = await Hub.fresh(1)
  const update = updateOf([[5, 1, '"five"'], [6, 1, 'oops'], [7, 1, '"seven"']])
  console.log(`  apply ${toHex(update)}`)
  console.log(`    hub: ${listWords(await hub.apply(update))}`)
  const peer = peerOf(2)
  console.log(`    y-protocols: ${listWords(applied(peer, update))}; shows ${othersOf(peer)}`)
  console.log(`    once more: ${listWords(applied(peer, update))}; shows ${othersOf(peer)}`)
  peer.destroy()
  const newcomer = peerOf(3)
  const provider = providerOf(newcomer)
  const words = givenWords(given(provider, (await hub.handle([3])).bytes))
  console.log(`  a new provider that is given the hub's answer to a query: ${words}; shows ${othersOf(newcomer)}`)
  provider.destroy()
  newcomer.destroy()
  hub.end()
}

const long = async () => {
  console.log('clients 5 and 7 in one update, of which 7 shows a string of so many bytes as JSON')
  const hub = await Hub.fresh(1)
  for (const bytes of [256, 257]) {
    const update = updateOf([[5, 1, '"five"'], [7, 1, JSON.stringify('x'.repeat(bytes - 2))]])
    const peer = peerOf(2)
    const [atPeer, atHub] = [applied(peer, update), await tried(hub.apply(update))]
    const held = recordWords(await hub.show(5))
    console.log(`  ${bytes}: y-protocols ${listWords(atPeer)}; the hub ${listWords(atHub)}, and holds 5: ${held}`)
    peer.destroy()
    await hub.beginAnew(1)
  }
  hub.end()
}

const main = async () => {
  await noJson()
  await long()
}

main()
