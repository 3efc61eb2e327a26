// Times the module of release/trac.html in Node: unpacking and compiling it, a run of 1,000,000 steps, a jump into it
// and back, and a way of `y` over it. Each figure is the least and the median of all rounds, in milliseconds.
//
//     node bench/web/run.mjs [ROUNDS] [PAGE]
import fs from 'node:fs'
import path from 'node:path'
import { fileURLToPath } from 'node:url'
import { Engine } from '../../tests/web/engine.mjs'

const top = path.join(path.dirname(fileURLToPath(import.meta.url)), '..', '..')
const rounds = Number(process.argv[2] ?? 15), page = process.argv[3] ?? path.join(top, 'release', 'trac.html')
const toll = fs.readFileSync(path.join(top, 'programs', 'examples', 'long-way-back.trac'))
const steps = 1_000_000

function timed(what, task, judge) {
    const times = []
    for (let k = 0; k < rounds; k++) {
        const from = process.hrtime.bigint()
        const result = task()
        times.push(Number(process.hrtime.bigint() - from) / 1e6)
        if (!judge(result)) throw new Error(`${what}: ${result.status} ${result.reply}`)
    }
    times.sort((a, b) => a - b)
    console.log(`| ${what} | ${times[0].toFixed(0)} | ${times[times.length >> 1].toFixed(0)} |`)
}

console.log('| What | Least, ms | Median, ms |\n|---|---|---|')
timed('opening: unpack, compile, first state', () => new Engine(page).debug(toll, 'p\n'), (it) => it.status === 0)
const engine = new Engine(page)
timed('a run of 1,000,000 steps', () => engine.run(toll, steps), (it) => it.status === 3 && it.others[0] === steps)
timed('a state after 1,000,000 steps', () => engine.debug(toll, `s ${steps}\np\n`, 1048576), (it) => it.status === 0)
const isWell = (it) => it.status === 0
const halfTheWay = `s ${steps / 2}\nb 1000\np\n`
timed('a state half the way, and one 1,000 steps back', () => engine.debug(toll, halfTheWay, 1048576), isWell)
timed('20,000 states, a step from one to the next', () => engine.debug(toll, 's 1\np\n'.repeat(20000)), isWell)
const form = () => engine.way(toll, steps, 4, [0], Buffer.from('toll'))
timed('`y` of a byte of a form, over 1,000,000 steps', form, isWell)
