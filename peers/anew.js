'use strict'
// A hub that is begun anew with the own id that it had, and how it is seen again.
// node anew.js

const { pass } = require('./clock')
const { Hub } = require('./hub')
const {
  applied, framesOf, given, listWords, peerOf, providerOf, reconnect, recordOf, recordWords, updateIn
} = require('./peer')

const own = 1
const QUERY = new Uint8Array([3])

// A provider that knows a hub at clock 42, and that hub begun anew with an id.
class Site {
  static async begunAnew (title, id = own) {
    console.log(title)
    const site = new Site()
    site.id = id
    site.peer = peerOf(2)
    site.provider = providerOf(site.peer)
    site.hub = await Hub.fresh(own)
    for (let clock = 1; clock <= 42; clock++) await site.hub.set('"before"')
    applied(site.peer, await site.hub.list([own]))
    await site.hub.beginAnew(id)
    return site
  }

  // Sends the peer the hub's own record, and tells what comes of it.
  async send () {
    const lists = applied(this.peer, await this.hub.list([this.id]))
    return `  the hub sends ${recordWords(await this.hub.show(this.id))}: the peer tells ${listWords(lists)}`
  }

  async say () {
    await this.hub.set('"anew"')
    return this.send()
  }

  // Lets the hub handle what the provider answers to a query.
  async ask () {
    const { sent: [answer] } = given(this.provider, QUERY)
    await this.hub.handle(answer)
    const [atPeer, atHub] = [recordOf(this.peer, own), await this.hub.show(own)].map(recordWords)
    console.log(`  the peer holds ${atPeer}; after its answer to a query the hub holds ${atHub}`)
  }

  // Lets the hub take what the provider sends while 30 s pass.
  async wait () {
    this.provider.ws.sent = []
    pass(30000)
    let told = 'is not listed'
    for (const frame of this.provider.ws.sent.flatMap(framesOf).filter(([tag]) => tag === 1)) {
      const { updated } = await this.hub.apply(updateIn(frame))
      if (updated.includes(own)) told = 'is listed as updated'
    }
    console.log(`  30 s pass; by what the peer sends in them the hub's own client ${told}`)
  }

  end () {
    this.provider.destroy()
    this.peer.destroy()
    this.hub.end()
  }
}

const sameId = async () => {
  const site = await Site.begunAnew('a peer knows a hub at clock 42, and the hub is begun anew with its id')
  for (let clock = 1; clock <= 43; clock++) {
    const said = await site.say()
    if ([1, 42, 43].includes(clock)) console.log(said)
  }
  site.end()
}

const asking = async () => {
  const site = await Site.begunAnew('the same, but the hub asks first')
  await site.ask()
  console.log(await site.say())
  site.end()
}

const waiting = async () => {
  const site = await Site.begunAnew('the same, but it waits until the peer drops its old record')
  console.log(await site.say())
  await site.wait()
  console.log(await site.send())
  site.end()
}

const askingLate = async () => {
  const site = await Site.begunAnew('the same, but it asks over a new connection')
  await reconnect(site.provider)
  await site.ask()
  console.log(await site.say())
  await site.wait()
  console.log(await site.send())
  site.end()
}

const freshId = async () => {
  const site = await Site.begunAnew('the hub is begun anew with another id', 7)
  console.log(await site.say())
  site.end()
}

const main = async () => {
  await sameId()
  await asking()
  await waiting()
  await askingLate()
  await freshId()
}

main()
