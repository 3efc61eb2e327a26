// What release/trac.mjs answers to rows, in one process: standard input has a row in each line, as JSON, and standard
// output an answer. A row has `words`, a `folder` to work in, `given`, which is standard input in base64, and `piece`:
// so many bytes come at a time, and what waits is looked at after each; all come at once if it is 0.
import process from 'node:process'
import readline from 'node:readline'
import { programs } from '../../release/trac.mjs'

// Streams that are held in memory.
class Held {
    constructor({ given, piece }) {
        this.given = Buffer.from(given, 'base64')
        this.piece = piece || this.given.length
        this.looks = piece > 0
        this.isTerminal = false
        this.output = []
        this.error = ''
    }

    write(bytes) {
        this.output.push(Buffer.from(bytes))
    }

    tell(text) {
        this.error += text
    }

    async feed(answerer) {
        for (let at = 0; at < this.given.length; at += this.piece) {
            answerer.take(this.given.subarray(at, at + this.piece))
            if (this.looks) answerer.look()
        }
        answerer.finish()
    }
}

for await (const line of readline.createInterface({ input: process.stdin })) {
    const row = JSON.parse(line), streams = new Held(row)
    process.chdir(row.folder)
    const status = await programs(streams).obey(row.words)
    const output = Buffer.concat(streams.output).toString('base64')
    console.log(JSON.stringify({ status, output, error: streams.error }))
}
