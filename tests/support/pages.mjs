// Pages that ./trac page made, opened by the page's own scripts in Node, over as much of a document as they need:
//
//     node pages.mjs TRAC.HTML states < LINES      where each page opens, with the states there and at other steps
//     node pages.mjs TRAC.HTML sentences < LINES   what the first page says of each step
//
// Each line is a page, as JSON: `given`, what trac page put into trac.html, and the other `steps`. All of one call have
// numbers of the same width.
import fs from 'node:fs'
import vm from 'node:vm'

// An element that keeps its text.
class Element {
    constructor() {
        this.texts = []
        this.dataset = {}
    }

    get textContent() {
        return this.texts.map((it) => (it instanceof Element ? it.textContent : it)).join('')
    }

    set textContent(text) {
        this.texts = [text]
    }

    append(...texts) {
        this.texts.push(...texts)
    }

    appendChild(element) {
        this.append(element)
        return element
    }

    replaceChildren(...texts) {
        this.texts = texts
    }

    setAttribute() {}
}

// A Worker in this process.
class Worker {
    constructor() {
        this.self = { postMessage: (data) => queueMicrotask(() => this.onmessage({ data })) }
        vm.runInNewContext(elements.worker.textContent, { self: this.self, TextEncoder, WebAssembly })
    }

    postMessage(data) {
        this.self.onmessage({ data })
    }

    terminate() {
        this.onmessage = () => {}
    }
}

const page = fs.readFileSync(process.argv[2], 'utf8')
const elements = {}
for (const id of ['module', 'worker', 'given-data', 'last', 'next']) {
    elements[id] = new Element()
    elements[id].textContent = new RegExp(`<script type="[^"]*" id="${id}">(.*?)</script>`, 's').exec(page)?.[1] ?? ''
}
const pages = fs.readFileSync(0, 'utf8').trimEnd().split('\n').map((line) => JSON.parse(line))
elements['given-data'].textContent = pages[0].given
globalThis.document = { getElementById: (id) => elements[id], createElement: () => new Element() }
globalThis.Worker = Worker
const of = async (name) => import(new URL(`../../web/${name}.js`, import.meta.url))
const { Runs } = await of('runs')
const { engineOfPage } = await of('engine')
const { measure } = await of('measure')
const { tapeOf } = await of('input')
const { DECIMALS, givenToPage } = await of('given')
const { openGiven } = await of('programs')
const { lastOf, nextOf } = await of('stretch')
const { showSentences } = await of('sentences')
const { endingOf } = await of('endings')
const opened = []

// A page that shows nothing: it runs a program and goes to steps as the page does.
class Shown {
    constructor(engine) {
        Object.assign(this, { engine, ahead: engine, run: null, isStale: false, editor: { fixed: null }, notes: [] })
        this.draft = { mayGo: async () => true }
        this.view = { note: (words) => this.notes.push(words) }
        this.cursor = { step: 0, passed: null, visit: async (step) => this.visit(step) }
        this.runs = new Runs(this)
        this.runs.perform = (wanted) => this.perform(wanted)
    }

    get shownRun() {
        return this.run
    }

    open({ name, bytes }) {
        opened.push({ name, bytes })
    }

    async perform(asked) {
        const wanted = { ...asked, tape: tapeOf(asked) }
        const came = await measure(this.engine, wanted.tape, wanted.isClosed, wanted.budget)
        this.run = this.runs.runOf(wanted, came)
        this.visit(this.run.end)
        return this.run
    }

    visit(step) {
        this.cursor.step = Math.min(step, this.run.end)
    }

    states() {
        return this.run.story.around(this.cursor.step, this.run.end)
    }
}

const engine = await engineOfPage(DECIMALS)

async function openedPage(given) {
    elements['given-data'].textContent = given
    const shown = new Shown(engine)
    await openGiven(shown, givenToPage())
    return shown
}

// A sentence without how it begins.
const rest = (id) => elements[id].textContent.replace(/^(Just done|Next|Start)[^:]*: /, '')

// What is said of each step once it is done, what was said of it before where that is something else, and what is
// said at the end.
async function sentences(shown) {
    let before = ''
    for (let step = 0; step <= shown.run.end; step++) {
        shown.visit(step)
        const states = await shown.states()
        showSentences(step, lastOf(shown, states), nextOf(shown, states), endingOf(shown).next, states)
        const bare = rest('last').replace(/^the idle program reads on: /, '')
        if (step > 0) console.log(`${step - 1}: ${rest('last')}`)
        if (step > 0 && bare !== before) console.log(`${step - 1} before it: ${before}`)
        before = rest('next')
    }
    console.log(`end: ${before}`)
}

const inSigns = (bytes) => Buffer.from(bytes).toString('base64')

// The state where a page stands: as `trac debug` prints it, but for what was read and printed, which is beside that.
async function stateOf(shown) {
    const { at: { text, parts } } = await shown.states()
    const printed = inSigns(shown.run.output.subarray(0, parts.printed))
    return { text: text.replace(/\nposition .*\noutput .*$/, ''), position: parts.position, printed }
}

// What a page is opened with, and what it shows.
async function shownBy({ given, steps }) {
    const shown = await openedPage(given)
    const { name, bytes } = opened.pop()
    const { notes, cursor: { step }, run: { end } } = shown
    const states = [await stateOf(shown)]
    for (const other of steps) {
        shown.visit(other)
        states.push(await stateOf(shown))
    }
    return { name, program: inSigns(bytes), step, end, notes, states }
}

if (process.argv[3] === 'sentences') await sentences(await openedPage(pages[0].given))
else for (const one of pages) console.log(JSON.stringify(await shownBy(one)))
