// Random programs and scripts, from fixed seeds.

// Numbers of 32 bits, by a generator that is small and the same everywhere.
export function numbers(seed) {
    let state = seed >>> 0
    return (most) => {
        state = (state + 0x6d2b79f5) >>> 0
        let it = Math.imul(state ^ (state >>> 15), state | 1)
        it ^= it + Math.imul(it ^ (it >>> 7), it | 61)
        return ((it ^ (it >>> 14)) >>> 0) % most
    }
}

const NAMES = ('ps ds ss cl cs cc cn in cr dd da eq gr ad su ml dv bu bi bc bs br ln pf sb fb eb tn tf cm rs rc hl')
    .split(' ')
const WORDS = ['a', 'b', 'ab', 'abc', 'aba', '1', '2', '-3', '7', '17', '0', '', '(a,b)', '#', 'x', '\n', '10', 'F',
    'G', '<', '\\', ']', '\xe9']

// A program: texts of calls, most of which use forms F and G, and what they read.
export function program(seed) {
    const next = numbers(seed)
    const pick = (list) => list[next(list.length)]
    const argument = (depth) => {
        if (depth < 3 && next(3) === 0) return call(depth + 1)
        return pick(WORDS) + (next(4) === 0 ? pick(WORDS) : '')
    }
    const call = (depth) => {
        // most of what ends a program at once, or changes its meta character, is left out
        const name = next(12) ? pick(NAMES.slice(0, 29)) : pick(NAMES)
        const count = next(4) + (name === 'eq' || name === 'gr' ? 2 : 0)
        const args = [name, ...(next(2) && /^(ds|ss|cl|cs|cc|cn|in|cr|dd)$/.test(name) ? [pick(['F', 'G'])] : [])]
        for (let k = 0; k < count; k++) args.push(argument(depth))
        return (next(4) ? '#(' : '##(') + args.join(',') + ')'
    }
    let text = ''
    for (let k = 1 + next(6); k > 0; k--) {
        for (let n = 1 + next(3); n > 0; n--) text += next(5) ? call(0) : pick(WORDS)
        text += next(15) ? "'" : ''
    }
    return Buffer.from(text, 'latin1')
}

// A script of the debugger for such a program.
export function script(seed) {
    const next = numbers(seed ^ 0x5bd1e995)
    const lines = []
    for (let k = 4 + next(20); k > 0; k--) {
        lines.push(
            [
                () => `s ${1 + next(40)}`,
                () => `s ${1 + next(400)}`,
                () => `b ${1 + next(60)}`,
                () => `u ${NAMES[next(NAMES.length)]} ${next(500)}`,
                () => `r ${NAMES[next(NAMES.length)]}`,
                () => 'p',
                () => 'p',
                () => `c ${next(30)}`,
                () => 'c',
                () => '',
            ][next(10)](),
        )
    }
    return lines.join('\n') + '\n' + (next(20) ? '' : 'not a command\np\n')
}
