// The module of release/trac.html, called as the page calls it.
import fs from 'node:fs'
import zlib from 'node:zlib'

export const ENDED = 0, BUDGET = 3, LIMIT = 4, MEMORY = 5, NOT_UNDERSTOOD = 8, TOO_LONG = 9

// The module's bytes: of the page, or of a file that is a module.
export function moduleIn(path) {
    const bytes = fs.readFileSync(path)
    if (bytes.subarray(0, 4).equals(Buffer.from('\0asm'))) return bytes
    const text = bytes.toString('latin1')
    const found = /<script type="application\/octet-stream" id="module">([A-Za-z0-9+/=\s]*)<\/script>/.exec(text)
    if (!found) throw new Error(`${path} holds no module`)
    return zlib.inflateSync(Buffer.from(found[1], 'base64'))
}

// An instance for one request; none is used twice.
class Request {
    constructor(module) {
        this.exports = new WebAssembly.Instance(module, {}).exports
    }

    room(size) {
        const place = this.exports.trac_web_allocate(BigInt(size))
        if (place === 0n) throw new RangeError('memory')
        return place
    }

    text(bytes) {
        const place = this.room(bytes.length)
        new Uint8Array(this.exports.memory.buffer).set(bytes, Number(place))
        return [place, BigInt(bytes.length)]
    }

    number(place) {
        return Number(new DataView(this.exports.memory.buffer).getBigUint64(Number(place), true))
    }

    // Calls an export. Arguments are texts (Uint8Array) and numbers; after them it has a buffer of this size, and
    // `more` numbers beside its length.
    call(name, args, size, more = 0) {
        const words = args.flatMap((it) => (it instanceof Uint8Array ? this.text(it) : [BigInt(it)]))
        const output = this.room(size), counts = [...Array(1 + more)].map(() => this.room(8))
        const status = this.exports[`trac_web_${name}`](...words, output, BigInt(size), ...counts)
        const [written, ...others] = counts.map((it) => this.number(it))
        const { buffer } = this.exports.memory
        return { status, reply: Buffer.from(buffer.slice(Number(output), Number(output) + written)), others }
    }
}

export class Engine {
    constructor(path) {
        this.module = new WebAssembly.Module(moduleIn(path))
    }

    once(name, args, size, more = 0) {
        return new Request(this.module).call(name, args, size, more)
    }

    // The same with twice the room while the reply is too long.
    ask(name, args, size = 65536, more = 0) {
        for (;;) {
            const answer = this.once(name, args, size, more)
            if (answer.status !== TOO_LONG) return answer
            size = 2 * size + 1
        }
    }

    run(text, budget = 1_000_000_000, decimals = 128, size = 65536) {
        return this.ask('run', [text, budget, decimals], size, 1)
    }

    debug(tape, commands, journal = 65536, decimals = 128) {
        return this.ask('debug', [tape, Buffer.from(commands), journal, decimals])
    }

    walk(program, lines, journal = 1048576, keep = 268435456, decimals = 128) {
        return this.ask('walk', [program, Buffer.from(lines), journal, keep, decimals])
    }

    way(tape, step, kind, numbers, name = Buffer.of(), journal = 1048576, decimals = 128) {
        const [first, second, third] = [...numbers, 0, 0, 0]
        return this.ask('way', [tape, step, kind, first, second, third, name, journal, decimals])
    }

    doubts(tape, budget = 10_000_000, decimals = 128) {
        return this.ask('doubts', [tape, budget, decimals], 65536, 1)
    }
}
