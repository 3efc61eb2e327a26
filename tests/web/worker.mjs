// The Worker of the page, run in Node over the same module: each try of a request begins with no block, and a reply
// that is too long for its room is asked for again, with twice the room or more.
import fs from 'node:fs'
import vm from 'node:vm'

const source = fs.readFileSync(new URL('../../web/worker.js', import.meta.url), 'utf8')

// A Worker that answers requests. `rooms` gets, for each try, how large its blocks are, and `instances` each instance.
function workerOver(module, rooms, instances) {
    const answers = []
    const self = { postMessage: (answer) => answers.push(answer) }
    function Instance(compiled, imports) {
        const { exports } = new WebAssembly.Instance(compiled, imports)
        instances.push(exports)
        const begin = (memory) => {
            rooms.push([])
            exports.trac_web_begin(memory)
        }
        const allocate = (size) => {
            rooms.at(-1).push(Number(size))
            return exports.trac_web_allocate(size)
        }
        return { exports: { ...exports, trac_web_begin: begin, trac_web_allocate: allocate } }
    }
    const compile = () => Promise.resolve(module)
    vm.runInNewContext(source, { self, TextEncoder, WebAssembly: { compile, Instance } })
    self.onmessage({ data: null })
    return async (request) => {
        await self.onmessage({ data: { number: answers.length, ...request } })
        return answers.pop()
    }
}

// Asks for replies of some lengths. `holds` counts a check.
export async function worker(engine, holds) {
    const rooms = [], instances = []
    const ask = workerOver(engine.module, rooms, instances)
    const tape = Buffer.from("#(ps,ABCDE)'")
    const tried = async (what, more, room, wanted) => {
        rooms.length = 0
        const answer = await ask({ call: 'debug', tape, room, ...more })
        const tries = rooms.map((blocks) => blocks[blocks.length - 2])
        holds(`${what}: rooms of ${tries}, and not ${wanted}`, tries.join() === wanted.join())
        return answer
    }
    const print = (times) => ({ commands: 's 1\nb 1\np\n'.repeat(times) })
    const reply = engine.debug(tape, print(90000).commands).reply
    holds(`a reply of ${reply.length} bytes is longer than 4 MiB, and than 8`, reply.length > 1 << 23)
    const whole = await tried('a reply that has room', print(1), 1000, [1000])
    holds('its bytes', Buffer.from(whole.bytes).equals(engine.debug(tape, print(1).commands).reply))
    await tried('one that has not', print(100), 1000, [1000, 1 << 22])
    const long = await tried('a long one', print(90000), 1 << 20, [1 << 20, 1 << 22, 1 << 23, 1 << 24])
    holds('its bytes, all of them', long.status === 0 && Buffer.from(long.bytes).equals(reply))
    const ofFront = { ...print(90000), most: 1 << 21 }
    const front = await tried('one of which the front is enough', ofFront, 1 << 20, [1 << 20, 1 << 21])
    holds('its front', front.status === 9 && Buffer.from(front.bytes).equals(reply.subarray(0, front.bytes.length)))
    holds(`one instance, and not ${instances.length}`, instances.length === 1)
    const much = instances[0].memory.buffer.byteLength
    for (let turn = 0; turn < 50; turn++) await tried('a long one again', print(90000), 1 << 24, [1 << 24])
    holds('50 long ones take no more memory than the first', instances[0].memory.buffer.byteLength === much)
    const kept = await ask({ call: 'run', budget: 1000, room: 1000 })
    holds('the input before is kept', kept.status === 0 && Buffer.from(kept.bytes).equals(Buffer.from('ABCDE')))
    // (one that prints 8 MiB takes more than 32 MiB)
    const large = Buffer.from("#(ds,D,x)'" + "#(ds,D,##(cl,D)##(cl,D))'".repeat(23) + "#(ps,##(cl,D))'")
    const short = await ask({ call: 'run', tape: large, budget: 100000, room: 1 << 24, memory: 1 << 25 })
    const isShort = short.isShort === true && short.refused === 'no memory'
    holds(`memory that it may have alone: ${JSON.stringify(short)}`, isShort)
    const alone = await ask({ call: 'run', tape: large, budget: 100000, room: 1 << 24 })
    holds('alone it has that', alone.status === 0 && alone.bytes.length === 1 << 23)
    const refused = await ask({ call: 'debug', tape: new Uint8Array(1 << 29), room: 1000, commands: 'p\n' })
    holds(`no room for the input: ${refused.refused}`, refused.refused === 'no memory' && refused.isShort === false)
    holds('after that it answers', (await ask({ call: 'run', tape, budget: 1000, room: 1000 })).status === 0)
    const { byteLength } = instances[0].memory.buffer
    holds(`no memory past 512 MiB: ${byteLength}`, byteLength <= 2 ** 29)
}
