'use strict'
// A hub that has met 64 clients takes no other, whoever of them is still there; and the way out.
// node full.js

require('./clock')
const { Hub, toHex, tried } = require('./hub')
const { applied, listWords, messageOf, peerOf, recordWords, updateOf } = require('./peer')

const own = 1
const [first, last] = [101, 163]
const QUERY = [3]
const STEP_1 = [0, 0, 1, 0]
const UPDATE_OF_A_BOARD = [0, 2, 3, 1, 5, 2]
const newcomer = updateOf([[1000, 1, '"new"']])

// Brings the clients from the first to the last to a hub and a peer, each of which leaves but the last.
const meet = async (hub, peer) => {
  for (let client = first; client <= last; client++) {
    const said = [updateOf([[client, 1, '"here"']]), updateOf([[client, 2, 'null']])]
    for (const update of client === last ? said.slice(0, 1) : said) {
      await hub.apply(update)
      applied(peer, update)
    }
  }
}

const shown = async (hub, clients) => {
  const records = await Promise.all(clients.map((client) => hub.show(client)))
  return clients.map((client, i) => `${client}: ${recordWords(records[i])}`).join(', ')
}

const fill = async (hub) => {
  console.log(`the own client is here, ${first} to ${last} came, and all but ${last} left`)
  const peer = peerOf(2)
  for (let clock = 1; clock <= 2; clock++) await hub.set('"hub"')
  await hub.handle(UPDATE_OF_A_BOARD)
  await meet(hub, peer)
  const [atPeer, atHub] = [applied(peer, newcomer), await tried(hub.apply(newcomer))]
  console.log(`  1000 comes: y-protocols ${listWords(atPeer)}; the hub ${listWords(atHub)}`)
  peer.destroy()
}

// Begins the hub anew with what messages hold.
const beginWith = async (hub, what, messages) => {
  console.log(`${what}: ${toHex(messages)}`)
  await hub.beginAnew(own)
  await hub.handle(messages)
  console.log(`  a fresh hub of the same own id that has handled it holds ${await shown(hub, [own, last, first])}`)
  console.log(`  its document is ${toHex((await hub.handle(STEP_1)).bytes)}`)
  console.log(`  1000 comes: the hub ${listWords(await hub.apply(newcomer))}`)
  const old = updateOf([[first, 1, '"here"']])
  console.log(`  what ${first} said before it left comes once more: the hub ${listWords(await hub.apply(old))}`)
}

const comeOut = async (hub) => {
  const { bytes: whole } = await hub.handle([...QUERY, ...STEP_1])
  const chosen = await hub.list([own, last, first])
  await beginWith(hub, 'what a query and a step 1 are answered with', whole)
  await beginWith(hub, `an awareness message with a list of ${own}, ${last} and ${first}`, messageOf(chosen))
}

const many = async (hub) => {
  const all = Array.from({ length: 65 }, (_, i) => [i, 1, '{}'])
  console.log(`65 clients in one update: the hub ${listWords(await tried(hub.apply(updateOf(all))))}`)
}

const main = async () => {
  const hub = await Hub.fresh(own)
  await fill(hub)
  await comeOut(hub)
  await many(hub)
  hub.end()
}

main()
