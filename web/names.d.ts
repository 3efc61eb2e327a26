// Types that many modules name.

// What answers requests; what can only be asked; and what a request may take.
type Engine = Pick<import("./engine.js").Engine, "ask" | "stop" | "waiting">
type Asked = Pick<Engine, "ask">
type Answer = import("./engine.js").Answer
type Words = import("./engine.js").Words

type Page = import("./page.js").Page
type View = import("./view.js").View
type Editor = import("./editor.js").Editor
type Action = import("./walking.js").Action

type Run = import("./run.js").Run
type Wanted = import("./run.js").Wanted
type Begin = import("./run.js").Begin
type Came = import("./run.js").Came
type Line = import("./run.js").Line
type Landmark = import("./run.js").Landmark

type Story = import("./story.js").Story
type States = import("./story.js").States
type Around = import("./story.js").Around
type Replies = import("./replies.js").Replies
type State = import("./replies.js").State
type Before = import("./replies.js").Before
type Parts = import("./parts.js").Parts
type Begun = import("./parts.js").Begun
type Form = import("./parts.js").Form
type Block = import("./parts.js").Block
type Move = import("./moves.js").Move
type Calls = import("./calls.js").Calls
type Doubt = import("./doubts.js").Doubt
type Row = import("./follow.js").Row

// A call: whether it is neutral, and its texts, of which the first is its name.
interface Called {
  readonly neutral: boolean
  readonly texts: string[]
}

// A word of a sentence: as it stands, or a text of the program, with what that is, and its call.
type Word = string | [text: string, kind?: string, call?: Called]
