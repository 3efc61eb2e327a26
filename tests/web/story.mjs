// The states that the page keeps: those around the cursor, and at most 64 MiB of them.
import { State } from '../../web/replies.js'
import { Story, windowOf } from '../../web/story.js'

const MOST = 64 << 20

// Three states from a step on, each of so many bytes.
function threeFrom(step, size) {
    return windowOf(step, Array.from({ length: 3 }, () => new State('x'.repeat(size), { position: 0, printed: 0 })))
}

// Goes through a run as a user might. `holds` counts a check.
export function story(holds) {
    const states = new Story(null, null, Buffer.of(), [])
    const length = () => states.windows.reduce((sum, window) => sum + window.length, 0)
    const visit = (step, size) => {
        states.cursor = step
        states.keep(threeFrom(step, size))
        holds(`at step ${step} ${length()} bytes are kept`, length() <= MOST && states.kept(step) !== undefined)
    }
    const steps = Array.from({ length: 40 }, (_, index) => index * 100)
    steps.forEach((step) => visit(step, 1 << 20))
    const kept = steps.filter((step) => states.kept(step))
    holds(`of 40 windows of 3 MiB the last 21 are kept: ${kept}`, kept.join() === steps.slice(-21).join())
    visit(50, 1 << 20)
    const isNearKept = states.kept(2000) !== undefined && states.kept(3900) === undefined
    holds('those that are farthest from the cursor go first', isNearKept)
    visit(60, 21 << 20)
    holds('large ones leave little room', states.kept(3800) === undefined && length() >= 63 << 20)
}
