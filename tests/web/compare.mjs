// Compares the module with the built programs: bytes that runs print, replies of the debugger, states, dialogues, ways
// of bytes, and doubts.
//
//     node compare.mjs PAGE TRAC TRAC_WALK PROGRAMS WALKS     PAGE is trac.html, or a module; the last two are folders
//
// The last line is `N passed, M failed`.
import { spawnSync } from 'node:child_process'
import fs from 'node:fs'
import os from 'node:os'
import path from 'node:path'
import { BUDGET, ENDED, Engine, LIMIT, MEMORY, NOT_UNDERSTOOD, TOO_LONG } from './engine.mjs'
import { modules } from './modules.mjs'
import * as random from './random.mjs'
import { story } from './story.mjs'
import { worker } from './worker.mjs'

const [page, trac, tracWalk, programs, walks] = process.argv.slice(2)
const engine = new Engine(page)
const room = fs.mkdtempSync(path.join(os.tmpdir(), 'trac-web-'))
let passed = 0, failed = 0

function holds(what, is) {
    if (is) passed++
    else {
        failed++
        console.error(`FAILED: ${what}`)
    }
}

const shown = (bytes) => JSON.stringify(bytes.subarray(0, 200).toString('latin1'))

function same(what, answer, status, output) {
    holds(`${what}: status ${answer.status}, and not ${status}`, answer.status === status)
    holds(`${what}: ${shown(answer.reply)}, and not ${shown(output)}`, answer.reply.equals(output))
}

function native(program, words, input) {
    const ran = spawnSync(program, words, { input, maxBuffer: 1 << 28 })
    return { status: ran.status, output: ran.stdout }
}

function inFile(bytes) {
    const file = path.join(room, 'program')
    fs.writeFileSync(file, bytes)
    return file
}

const read = (file, otherwise) => (fs.existsSync(file) ? fs.readFileSync(file) : otherwise)

// Whole programs, with what they print, by both widths.
function wholePrograms() {
    for (const file of fs.readdirSync(programs).filter((it) => it.endsWith('.trac'))) {
        const name = path.join(programs, file.slice(0, -5))
        const text = fs.readFileSync(`${name}.trac`), output = fs.readFileSync(`${name}.out`)
        const status = Number(read(`${name}.status`, '0'))
        same(file, engine.run(text), status, output)
        same(`${file}, 64 bits`, engine.run(text, 1_000_000_000, 64), status, read(`${name}.64`, output))
    }
}

// The rows of tests/hostile that fit the declared memory, and requests that do not.
function hostile() {
    const repeated = (count, text) => Buffer.alloc(count * text.length, text)
    const parentheses = Buffer.concat([repeated(1_000_000, '('), Buffer.from("'")])
    same('1,000,000 parentheses that nothing closes', engine.run(parentheses), ENDED, Buffer.of())
    const pairs = (count) => Buffer.concat([repeated(count, '('), repeated(count, ')')])
    same('1,000,000 pairs', engine.run(Buffer.concat([pairs(1_000_000), Buffer.from("'")])), ENDED, pairs(999_999))
    const doubling = Buffer.from("#(ds,E,(#(ds,D,##(cl,D)##(cl,D))#(cl,E)))'#(ds,D,x)#(cl,E)'")
    same('a form that doubles itself', engine.run(doubling), LIMIT, Buffer.of())
    const printing = Buffer.from("#(ds,D,x)'" + "#(ds,D,##(cl,D)##(cl,D))'".repeat(22) + "#(ps,##(cl,D))'".repeat(5))
    same('20 MiB of output', engine.run(printing, 1_000_000, 128, 1 << 24), ENDED, Buffer.alloc(20971520, 'x'))
    const numerals = Buffer.from(`#(gr,1${'0'.repeat(1000)},${'9'.repeat(1000)},y,n)'`)
    same('numerals of 1,000 digits', engine.run(numerals), ENDED, Buffer.from('y'))
    for (let byte = 0; byte < 256; byte++) {
        const text = byte === 48 || byte === 49 ? 'xy' : '01', it = Buffer.of(byte)
        const bytes = Buffer.concat([Buffer.from("#(cm,##(rc))'"), it, Buffer.from(text), it])
        same(`the byte ${byte} as the meta character`, engine.run(bytes), ENDED, Buffer.from(text))
    }
    same('a text without end', engine.run(Buffer.alloc(40_000_000)), LIMIT, Buffer.of())
    const endless = Buffer.from("#(ds,E,(#(cl,E)))'#(cl,E)'")
    same('a program without end', engine.run(endless, 100_000), BUDGET, Buffer.of())
}

// Numbers that no request takes: nothing is done.
function wrongNumbers() {
    const text = Buffer.from("#(ps,A)'"), none = Buffer.of()
    for (const budget of [0n, 1_000_000_000_001n, 2n ** 64n - 1n]) {
        for (const name of ['run', 'doubts']) {
            same(`a budget of ${budget}, ${name}`, engine.ask(name, [text, budget, 128], 64, 1), 10, none)
        }
    }
    for (const decimals of [0, 63, 65, 127, 129, 2n ** 64n - 1n]) {
        same(`decimals of ${decimals}, doubts`, engine.ask('doubts', [text, 100, decimals], 64, 1), 12, none)
        same(`decimals of ${decimals}, run`, engine.ask('run', [text, 100, decimals], 64, 1), 12, none)
        same(`decimals of ${decimals}, debug`, engine.ask('debug', [text, text, 1, decimals], 64), 12, none)
        same(`decimals of ${decimals}, walk`, engine.ask('walk', [text, text, 1, 1, decimals], 64), 12, none)
        same(`decimals of ${decimals}, way`, engine.ask('way', [text, 1, 0, 0, 0, 0, none, 1, decimals], 64), 12, none)
    }
    for (const journal of [0n, 1_048_577n, 2n ** 64n - 1n]) {
        same(`a journal of ${journal}, debug`, engine.ask('debug', [text, text, journal, 128], 64), 11, none)
        same(`a journal of ${journal}, walk`, engine.ask('walk', [text, text, journal, 1, 128], 64), 11, none)
        same(`a journal of ${journal}, way`, engine.ask('way', [text, 1, 0, 0, 0, 0, none, journal, 128], 64), 11, none)
    }
    for (const kind of [6n, 2n ** 64n - 1n]) same(`a place of kind ${kind}`, engine.way(text, 1, kind, []), 13, none)
    same('a step that is not reached', engine.way(text, 1_000_000, 0, [0]), 14, none)
}

// Rooms: a reply of as many bytes as its buffer has, and of one more.
function rooms() {
    const text = Buffer.from("#(ps,ABCDE)'")
    for (let size = 0; size < 5; size++) {
        const answer = engine.once('run', [text, 1000, 128], size, 1)
        same(`5 bytes in a buffer of ${size}`, answer, TOO_LONG, Buffer.from('ABCDE'.slice(0, size)))
    }
    same('5 bytes in a buffer of 5', engine.ask('run', [text, 1000, 128], 5, 1), ENDED, Buffer.from('ABCDE'))
    const wrong = Buffer.from("#(pr,a)'"), row = Buffer.from(':1:3: no primitive is named pr (step 13)\n')
    for (const size of [0, 1, row.length - 1]) {
        const front = engine.once('doubts', [wrong, 1000, 128], size, 1)
        same(`a row in a buffer of ${size}`, front, TOO_LONG, row.subarray(0, size))
    }
    same('a row in a buffer for it', engine.once('doubts', [wrong, 1000, 128], row.length, 1), ENDED, row)
}

// Memory: a request past the declared most is refused, and so is what a program needs there.
function memory() {
    for (const size of [2n ** 29n, 2n ** 30n, 2n ** 31n, 2n ** 32n, 2n ** 32n + 16n, 2n ** 63n, 2n ** 64n - 1n]) {
        const { exports } = new WebAssembly.Instance(engine.module, {})
        holds(`a request of ${size} bytes is refused`, exports.trac_web_allocate(size) === 0n)
        holds(`after that one of 64 KiB is not`, exports.trac_web_allocate(65536n) !== 0n)
    }
    const { exports } = new WebAssembly.Instance(engine.module, {})
    let taken = 0
    while (exports.trac_web_allocate(2n ** 24n) !== 0n) taken++
    holds(`${taken} blocks of 16 MiB are there`, taken >= 28 && taken < 32)
    holds('no more is taken than is declared', exports.memory.buffer.byteLength <= 2 ** 29)
    const text = Buffer.from("#(ds,E,(#(ds,D,##(cl,D)##(cl,D))#(cl,E)))'#(ds,D,x)#(cl,E)'")
    const [place, output, count] = [text.length, 64, 16].map((size) => exports.trac_web_allocate(BigInt(size)))
    new Uint8Array(exports.memory.buffer).set(text, Number(place))
    const status = exports.trac_web_run(place, BigInt(text.length), 1_000_000n, 128n, output, 64n, count, count + 8n)
    holds(`a run without memory: status ${status}, and not ${MEMORY}`, status === MEMORY)
    blocks()
}

// Blocks of random sizes that are taken and freed: none lies in another. What is free and touches is one block.
function blocks() {
    const { exports } = new WebAssembly.Instance(engine.module, {}), next = random.numbers(77)
    const take = (size) => Number(exports.trac_web_allocate(BigInt(size)))
    const free = (place) => exports.trac_web_release(BigInt(place))
    const at = (place, size) => Buffer.from(exports.memory.buffer, place, size)
    exports.trac_web_begin(2n ** 26n)
    const held = []
    let whole = 0, wrong = 0
    const drop = (index) => {
        const [{ place, size, value }] = held.splice(index, 1)
        at(place, size).equals(Buffer.alloc(size, value)) ? whole++ : wrong++
        free(place)
    }
    for (let turn = 0; turn < 4000; turn++) {
        const size = 1 + next(turn % 3 ? 3000 : 600_000), place = take(size)
        if (place % 16 !== 0) wrong++
        if (place) held.push({ place, size, value: turn % 251 })
        if (place) at(place, size).fill(turn % 251)
        while (held.length > 0 && next(100) < (place ? 40 : 80)) drop(next(held.length))
    }
    while (held.length > 0) drop(held.length - 1)
    holds(`${whole} blocks are whole, ${wrong} are not`, wrong === 0 && whole > 3500)
    holds('some memory was refused', exports.trac_web_refusals() > 0n)
    exports.trac_web_begin(2n ** 26n)
    const rows = Array.from({ length: 20 }, () => take(2 ** 20)), least = rows[0], most = rows[19] + 2 ** 20
    for (const order of [1, 0, 3, 2]) rows.filter((_, index) => index % 4 === order).forEach(free)
    const one = take(20 * 2 ** 20)
    const isOne = one >= least && one + 20 * 2 ** 20 <= most + 320
    holds('20 blocks that touch become one', isOne && exports.trac_web_refusals() === 0n)
}

// Random programs: what they print and how they end.
function randomPrograms() {
    for (let seed = 1; seed <= 1000; seed++) {
        const text = random.program(seed)
        const wanted = native(trac, ['run', '--budget', '20000'], text)
        same(`random program ${seed}`, engine.run(text, 20000), wanted.status, wanted.output)
    }
}

// Scripts of the debugger, and states that it prints after so many steps.
function scripts() {
    for (let seed = 1; seed <= 300; seed++) {
        const text = random.program(10_000 + seed), commands = random.script(seed)
        const wanted = native(trac, ['debug', inFile(text)], commands)
        const answer = engine.debug(text, commands)
        same(`script ${seed}`, answer, wanted.status, wanted.output)
        if (wanted.status !== 0) holds(`script ${seed}: status`, wanted.status === NOT_UNDERSTOOD)
        const step = random.numbers(seed)(300), one = `s ${step}\np\n`
        const { output } = native(trac, ['debug', inFile(text)], one)
        same(`state ${seed}, after ${step} steps`, engine.debug(text, one), 0, output)
    }
}

// Dialogues: the walks that the tests have.
function dialogues() {
    for (const file of fs.readdirSync(walks).filter((it) => it.endsWith('.in'))) {
        const name = path.join(walks, file.replace(/(\.found)?\.in$/, ''))
        if (fs.existsSync(`${name}.options`) || !fs.existsSync(`${name}.trac`)) continue
        const wanted = fs.readFileSync(path.join(walks, file.replace(/in$/, 'out')))
        const answer = engine.walk(fs.readFileSync(`${name}.trac`), fs.readFileSync(path.join(walks, file)), 65536)
        same(`the walk ${file}`, answer, ENDED, wanted)
    }
}

const DEEDS = {
    'prints it': 'prints', 'sets it': 'sets', 'gives it': 'gives', 'fills gap': 'gives', 'gives its default': 'gives',
    'makes it': 'made', 'it is there already': 'earlier',
}
const ROW = new RegExp('^(\\d+) .*? {2,}(?:(prints it|sets it|gives it|fills gap|gives its default|makes it'
    + '|it is there already)(?:: .*| \\d+)?|reads it: line (\\d+), column (\\d+)|reads it: byte (\\d+) after FILE)$')

// What a line of `y` says: the step, and what it did, with line and column.
function said(line) {
    const found = ROW.exec(line)
    if (!found) return undefined
    if (found[3]) return `${found[1]} read ${found[3]} ${found[4]}`
    return `${found[1]} ${DEEDS[found[2]]}`
}

// The same of a row of a way.
function told(row) {
    const [step, deed, , line, column] = row.split(' ')
    return deed === 'read' ? `${step} read ${line} ${column}` : `${step} ${deed}`
}

// What is said to one `y`, up to where it stands then.
const REPLY = new RegExp('(?:^\\d+  .*  (?:(?:prints|sets|gives|makes|reads) it|fills gap|gives its default).*\\n'
    + '|^\\.\\. \\d+ more \\.\\.\\n|^(?:FILE|    )    .*\\n)*^here: .*\\n', 'gm')

// Each byte that the programs print: its way, as `y` says it.
function ways() {
    for (const file of fs.readdirSync(programs).filter((it) => it.endsWith('.trac'))) {
        const name = path.join(programs, file), text = fs.readFileSync(name)
        const { status, reply, others: [steps] } = engine.run(text)
        if (status !== ENDED || steps > 1_000_000) continue
        const lines = ['s end', 'e', 's end']
        for (let k = 1; k <= reply.length; k++) lines.push(`y #${k}`, 'e', 's end')
        const typed = lines.join('\n') + '\n'
        const walked = native(tracWalk, ['--journal', '1048576', name], typed).output.toString('latin1')
        const replies = walked.match(REPLY) ?? []
        holds(`${file}: ${replies.length} replies to ${reply.length} questions`, replies.length === reply.length)
        replies.forEach((text_, k) => {
            const wanted = text_.split('\n').map(said).filter((it) => it)
            const more = /^\.\. (\d+) more \.\.$/m.exec(text_)
            const answer = engine.way(text, steps, 0, [k])
            const rows = answer.reply.toString('latin1').split('\n').slice(0, -1).map(told)
            // of a long way trac-walk shows the first calls and the last
            const seen = more ? [...rows.slice(0, wanted.length - 1), ...rows.slice(-1)] : rows
            holds(`${file}, byte ${k}: ${seen.join('; ')}, and not ${wanted.join('; ')}`,
                answer.status === ENDED && seen.join() === wanted.join()
                && (!more || rows.length === wanted.length + Number(more[1])))
        })
    }
}

// How a search for doubts ended, by what trac-lint says of it.
function searchStatus(status, said) {
    if (/: stopped after \d+ steps; --steps allows more$/m.test(said)) return BUDGET
    if (/: stopped after \d+ steps, where a limit is passed/m.test(said)) return LIMIT
    return said === '' && status < 2 ? ENDED : undefined
}

const LINTED = 'tests/data/lint'

// The doubts of all programs that are here: the lines of trac-lint, for the program and what it reads in one file,
// without its name.
function doubts() {
    const top = path.join(programs, '..', '..', '..')
    const linted = [LINTED, `${LINTED}/mistakes`, `${LINTED}/parentheses`]
    for (const folder of [...linted, 'tests/data/programs', 'programs/examples']) {
        const names = fs.readdirSync(path.join(top, folder)).filter((it) => it.endsWith('.trac'))
        holds(`${folder} has programs`, names.length > 0)
        for (const name of names) {
            const it = path.join(top, folder, name.slice(0, -5)), options = read(`${it}.options`, '').toString()
            const input = /--input (\S+)/.exec(options), decimals = /--decimals (\d+)/.exec(options)
            const hasInput = input && folder === LINTED
            const given = hasInput ? fs.readFileSync(path.join(top, folder, input[1])) : Buffer.of()
            const tape = Buffer.concat([fs.readFileSync(`${it}.trac`), given])
            const file = inFile(tape), width = decimals ? decimals[1] : '128'
            const words = ['--lint', '--decimals', width, file]
            const found = spawnSync(tracWalk, words, { encoding: 'latin1', maxBuffer: 1 << 28 })
            const bare = (line) => (line.startsWith(`${file}:`) ? line.slice(file.length) : line)
            const lines = found.stdout.split('\n').map(bare)
            const answer = engine.doubts(tape, 10_000_000, Number(width))
            const status = searchStatus(found.status, found.stderr)
            same(`doubts of ${folder}/${name}`, answer, status, Buffer.from(lines.join('\n'), 'latin1'))
            const told = lines.filter((line) => line.startsWith(':') && !/^:\d+:\d+: note: /.test(line)).length
            holds(`doubts of ${folder}/${name}: ${answer.others[0]} places, and not ${told}`, answer.others[0] === told)
        }
    }
}

const parts = {
    wholePrograms, hostile, wrongNumbers, rooms, memory, randomPrograms, scripts, dialogues, ways, doubts,
    story: () => story(holds), worker: () => worker(engine, holds),
    modules: () => modules(engine, holds),
}
try {
    for (const [name, part] of Object.entries(parts)) {
        const from = process.hrtime.bigint()
        await part()
        if (process.env.TRAC_WEB_TIMES) console.error(`${name}: ${Number(process.hrtime.bigint() - from) / 1e9} s`)
    }
} finally {
    fs.rmSync(room, { recursive: true })
}
console.log(`${passed} passed, ${failed} failed`)
process.exit(failed ? 1 : 0)
