'use strict'
// Time that passes only when it is told to, in place of Date.now and setInterval; to be loaded before the peers are.

let now = 0
const timers = new Set()

Date.now = () => now
global.clearInterval = (timer) => timers.delete(timer)
global.setInterval = (callback, period) => {
  const timer = { callback, period, due: now + period }
  timers.add(timer)
  return timer
}

// Puts the time, and lets no timer run.
const setTime = (reading) => { now = reading }

// Lets milliseconds pass, and what is due in them run.
const pass = (milliseconds) => {
  const end = now + milliseconds
  for (;;) {
    const next = [...timers].filter((timer) => timer.due <= end).sort((a, b) => a.due - b.due)[0]
    if (next === undefined) break
    now = next.due
    next.due += next.period
    next.callback()
  }
  now = end
}

module.exports = { pass, setTime }
