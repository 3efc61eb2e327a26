// Modules of the page in Node: none of them shows anything here.
globalThis.document ??= { getElementById: () => ({ textContent: 'null' }) }

const { movedAnew } = await import('../../web/anew.js')
const { wayFrom } = await import('../../web/follow.js')
const { hintsOf } = await import('../../web/hints.js')
const { measure } = await import('../../web/measure.js')
const { endOfArgument, formsSet, isSlip, remedied } = await import('../../web/remedies.js')
const { Story } = await import('../../web/story.js')

// What the page asks its Worker, asked of the module; of the steps that a move or a way goes back over, it keeps so
// many.
const asked = (engine, kept = 1048576) => ({
    ask: async (call, tape, words) => {
        const { commands, journal = 1048576, keep = 268435456, budget, most = Infinity } = words
        const { step, kind, numbers, name } = words
        const { status, reply } = call === 'run' ? engine.run(tape, budget)
            : call === 'way' ? engine.way(tape, step, kind, numbers, name, kept)
            : call === 'walk' ? engine.walk(tape, commands, Math.min(journal, kept), keep)
            : engine.debug(tape, commands, journal)
        return reply.length > most ? { status: 9, bytes: reply.subarray(0, most) } : { status, bytes: reply }
    },
})

// Names that are one slip from another, and that are not: by counting.
function slips(holds) {
    const near = ['pr ps', 'psx ps', 'p ps', 'sp ps', 'greting greeting', 'greetings greeting', 'gteeting greeting',
        'greetign greeting']
    const far = ['ps ps', 'greitign greeting', 'abc cba', 'p psx', 'ab cd', 'abcd badc']
    for (const row of near) holds(`${row}: one slip`, isSlip(...row.split(' ')) && isSlip(...row.split(' ').reverse()))
    for (const row of far) {
        const names = row.split(' ')
        holds(`${row}: not one slip`, !isSlip(...names) && !isSlip(...names.reverse()))
    }
    holds('a blank too many', isSlip(' ps', 'ps') && isSlip('ps ', 'ps'))
}

// What is said of a doubt, with what was probably meant; and what of it is marked.
function remedies(holds) {
    const program = "#(pr,a)#(ps,Hello, big world)#(cl,(a,b)\n)#(x(y,z)'"
    const bytes = Buffer.from(program)
    const marked = (text) => program.slice(program.indexOf(text), endOfArgument(bytes, program.indexOf(text)))
    const wanted = ['pr', ' big world', 'a,b', 'x(y,z)']
    for (const text of wanted) {
        const [is, should] = [marked(text), text].map((one) => JSON.stringify(one))
        holds(`marked is ${is}, and not ${should}`, is === should)
    }
    const story = { isSmall: true, kept: () => ({ parts: { forms: [{ name: 'Hall' }, { name: 'a\\x2c' }] } }) }
    const run = { program: bytes, end: 9, story }
    const forms = formsSet(run, { texts: ['#(ds,Factorial,(x))', '##(DS,greeting,hi)', '#(ds,(a,b),c)', '#(ps,x)'] })
    holds(`the forms: ${[...forms]}`, [...forms].join() === 'Factorial,greeting,Hall')
    const page = (call) => ({ run, tree: { textAt: () => call } })
    const said = (words, call = '#(x)') => remedied({ step: 1, byte: 2, words }, page(call), forms).words
    const rows = [
        ['no primitive is named pr', 'no primitive is named pr: did you mean ps or pf?'],
        ['no primitive is named  ps', 'no primitive is named  ps: did you mean ps?'],
        ['no primitive is named ADD', 'no primitive is named ADD: did you mean ad?'],
        ['no primitive is named Factoral', 'no primitive is named Factoral: did you mean #(cl,Factorial)?'],
        ['no primitive is named print', 'no primitive is named print: did you mean ps?'],
        ['no primitive is named SUB', 'no primitive is named SUB: did you mean su?'],
        ['no primitive is named if', 'no primitive is named if: did you mean eq or gr?'],
        ['no primitive is named lobby', 'no primitive is named lobby'],
        ['no form is named greting', 'no form is named greting: did you mean greeting?'],
        ['no form is named HALL', 'no form is named HALL: did you mean Hall?'],
        ['no form is named lobby', 'no form is named lobby'],
    ]
    for (const [words, all] of rows) holds(`it says ${said(words)}, and not ${all}`, said(words) === all)
    const fits = 'the result does not fit, and gives nothing'
    for (const call of ['#(dv,7,0)', '##(DV,7,-00,x)', '#(dv,7)']) {
        holds(`${call} divides by 0: ${said(fits, call)}`, said(fits, call).startsWith('this divides by 0'))
    }
    holds('another result', said(fits, '#(ml,7,0)') === fits && said(fits, '#(dv,7,10)') === fits)
}

// What a program shows by itself: the places, what stands there, and what is said of it.
function hints(holds) {
    const call = (name) => `no # stands before this, so no call begins here: did you mean #(${name},?`
    const rows = [
        ["print(hello)'", [`0 print( ${call('ps')}`]],
        ["#(ps,a)'\n\tPrint(b)'ds(a,b)'", [`10 Print( ${call('ps')}`, `19 ds( ${call('ds')}`]],
        ["if(a)'", ['0 if( no # stands before this, so no call begins here: did you mean #(eq, or #(gr,?']],
        ["# (ps,a)'", ['0 # ( a blank stands between # and (, so no call begins here; without it one does']],
        ["#(ps,it's)'", ["7 ' this ' ends the text, as it does wherever it stands; #(cm,;)' has ; end texts instead"]],
    ]
    const none = ["#(print,a)'", "print (a)'", "Name(x)'", "#(ps,Hello(,) print(x))'", "(print(x))'", 'print hello',
        "#(ps,(\nprint(x)))'", "#(cm,;)'print(hello);", "'".repeat(100_000) + ' '.repeat(900_000)]
    for (const [program, wanted] of [...rows, ...none.map((one) => [one, []])]) {
        const said = hintsOf(Buffer.from(program))
            .map(({ byte, end, words }) => `${byte} ${program.slice(byte, end)} ${words}`)
        const [is, should] = [said, wanted].map((one) => JSON.stringify(one))
        holds(`of ${program.slice(0, 40)}: ${is}, and not ${should}`, is === should)
    }
}

// Moves in a run of more steps than the processor keeps.
async function longMoves(engine, holds) {
    const long = 'a'.repeat(1_300_000)
    for (const [text, line, wanted] of [
        [`#(ps,x)${long}'`, 'r', 13],
        [`#(ds,A,${long}#(ad,1,2)`, 'O', 8],
        [`#(ds,A,(${long})#(ad,1,2)${long}`, 'O', 8],
        [`${long}`, 'r', null],
    ]) {
        const tape = Buffer.from(text)
        const came = await measure(asked(engine), tape, true, 4_000_000)
        const run = { ...came, tape, isClosed: true, story: new Story(asked(engine), tape, came.landmarks) }
        const from = came.end - (line === 'O' ? 20 : 1)
        const { step, said } = await movedAnew(asked(engine), run, from, line, false)
        const name = `${line} over ${text.slice(0, 12)}..${text.slice(-12)}, from ${from}`
        holds(`${name}: to ${step}, and not ${wanted ?? from}`, step === (wanted ?? from))
        // (where nothing is met, it looked as far as the start)
        const words = wanted === null ? 'not met since the first step that is kept, step 0' : ''
        holds(`${name}: it says ${said}, and not ${words}`, said === words)
    }
}

// A run of a program with all of its input, for a processor that keeps all steps.
async function runOf(engine, text) {
    const tape = Buffer.from(text)
    const came = await measure(asked(engine), tape, true, 100_000)
    return { ...came, tape, isClosed: true, story: new Story(asked(engine), tape, came.landmarks) }
}

// A form that calls itself, and then a form that was set before: its name, its gap and its text are read long before.
const TURNING = "#(ds,name,(Ann))#(ds,L,(#(eq,N,0,,(#(cl,L,#(su,N,1))))))'#(ss,L,N)'"
    + "#(ps,(x)##(cl,name))#(cl,L,9)#(ps,##(cl,name)!)'"

// Moves over a call, and ways: if 16 steps are kept, they come to the same as if all are, which is what the processor
// is proved to say.
async function keptAnew(engine, holds) {
    const run = await runOf(engine, TURNING), few = asked(engine, 16)
    for (let from = run.end; from > 0; from -= 31) {
        const one = await movedAnew(asked(engine), run, from, 'N', false)
        const other = await movedAnew(few, run, from, 'N', false)
        const [wanted, found] = [one, other].map(({ step, said }) => `to ${step}, ${said}`)
        holds(`N from ${from}: ${found}, and not ${wanted}`, found === wanted)
    }
    const rowSaid = ({ step, deed, byte }) => [step, deed, byte].join(' ')
    const ways = { ends: 0, said: (rows) => rows.map(rowSaid).join('; ') }
    for (const step of [run.end - 9, 200]) {
        const { parts } = (await run.story.at([step])).get(step), name = new Uint8Array(0)
        const count = Math.ceil(parts.active.length / 9)
        const spots = Array.from({ length: count }, (_, at) => ({ kind: 1, numbers: [9 * at], name }))
        parts.calls.forEach(({ texts }, depth) => texts.forEach((text, at) => {
            if (text) spots.push({ kind: 3, numbers: [depth, at, 0], name })
        }))
        for (const form of parts.forms) {
            spots.push({ kind: 4, numbers: [1], name: new Uint8Array(Buffer.from(form.name)) })
        }
        for (const spot of spots) {
            const one = ways.said(await wayFrom(asked(engine), run, step, spot))
            const other = ways.said(await wayFrom(few, run, step, spot))
            if (/read/.test(one)) ways.ends++
            holds(`${JSON.stringify(spot)} at ${step}: ${other}, and not ${one}`, one === other)
        }
    }
    holds(`ways that end in the program: ${ways.ends}`, ways.ends > 5)
}

// All that. `holds` counts a check.
export async function modules(engine, holds) {
    slips(holds)
    remedies(holds)
    hints(holds)
    await longMoves(engine, holds)
    await keptAnew(engine, holds)
}
