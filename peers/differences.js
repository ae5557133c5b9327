'use strict'
// Each difference between a hub and an Awareness of y-protocols, by the smallest input that shows it.
// node differences.js

const { setTime } = require('./clock')
const { encodeAwarenessUpdate, removeAwarenessStates } = require('y-protocols/awareness')
const { Hub, toHex, tried } = require('./hub')
const { applied, listWords, listsOf, peerOf, recordOf, recordWords, updateOf } = require('./peer')

const own = 1

// A hub and a peer side by side, of one own client.
class Pair {
  static async fresh (title) {
    console.log(title)
    const pair = new Pair()
    pair.peer = peerOf(own)
    pair.hub = await Hub.fresh(own)
    return pair
  }

  // One in which both show `{}` at clock 1.
  static async begun (title) {
    const pair = await Pair.fresh(title)
    pair.peer.setLocalState({})
    await pair.hub.set('{}')
    return pair
  }

  async tell (client, atPeer, atHub) {
    console.log(`    y-protocols: ${atPeer}; holds ${recordWords(recordOf(this.peer, client))}`)
    console.log(`    hub: ${atHub}; holds ${recordWords(await this.hub.show(client))}`)
  }

  // Gives both an update, and tells what they then hold of a client.
  async apply (update, client) {
    console.log(`  apply ${toHex(update)}`)
    const atPeer = applied(this.peer, update)
    const atHub = await tried(this.hub.apply(update))
    await this.tell(client, listWords(atPeer), listWords(atHub))
  }

  end () {
    this.peer.destroy()
    this.hub.end()
  }
}

// Gives both updates one after another, of an entry each.
const entries = async (title, ...each) => {
  const pair = await Pair.begun(title)
  for (const entry of each) await pair.apply(updateOf([entry]), entry[0])
  pair.end()
}

const begins = async () => {
  const pair = await Pair.fresh('before the own client is set')
  await pair.tell(own, 'fresh', 'fresh')
  pair.end()
}

const twice = async () => {
  const pair = await Pair.begun('a client twice in one update')
  await pair.apply(updateOf([[7, 1, '1'], [7, 2, '2'], [7, 3, '3']]), 7)
  pair.end()
}

const cut = async () => {
  const pair = await Pair.begun('an update that is cut short')
  await pair.apply(updateOf([[7, 1, '{}'], [8, 1, '{}']]).slice(0, -1), 7)
  pair.end()
}

const writes = async (title, ...texts) => {
  const pair = await Pair.begun(title)
  for (const [i, text] of texts.entries()) {
    await pair.apply(updateOf([[7 + i, 1, text]]), 7 + i)
    console.log(`    y-protocols writes ${toHex(encodeAwarenessUpdate(pair.peer, [7 + i]))}`)
    console.log(`    the hub writes ${toHex(await pair.hub.list([7 + i]))}`)
  }
  pair.end()
}

const removes = async () => {
  const pair = await Pair.begun('another client is removed by a call')
  await pair.apply(updateOf([[7, 1, '{}']]), 7)
  console.log('  remove 7')
  const lists = listsOf(pair.peer, () => removeAwarenessStates(pair.peer, [7], 'call'))
  await pair.hub.remove(7)
  await pair.tell(7, listWords(lists), 'done')
  await pair.apply(updateOf([[7, 2, '{}']]), 7)
  pair.end()
}

const cleans = async () => {
  const pair = await Pair.begun('the own client is made null, at time 5')
  setTime(5)
  await pair.hub.clock(5)
  pair.peer.setLocalState(null)
  await pair.hub.clean()
  await pair.tell(own, `time ${recordOf(pair.peer, own).time}`, `time ${(await pair.hub.show(own)).time}`)
  pair.end()
}

const main = async () => {
  await begins()
  await entries('a text at clock 0', [7, 0, '{}'], [7, 1, '{}'])
  await entries('a null at clock 0', [7, 0, 'null'], [7, 1, '{}'])
  await entries('the own live record meets a null', [own, 1, 'null'])
  await entries('the same JSON with its keys in another order', [7, 1, '{"a":1,"b":2}'], [7, 2, '{"b":2,"a":1}'])
  await writes('JSON with a blank in it', '{"a": 1}')
  await entries('a null with a blank before it', [7, 1, '{}'], [7, 2, ' null'])
  await writes('JSON that JavaScript takes for false', '""', '0', 'false')
  await twice()
  await cut()
  await removes()
  await cleans()
}

main()
