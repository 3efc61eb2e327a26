// What browsers have, and the types of TypeScript 4.8 lack.

declare class Highlight {
  constructor(...ranges: AbstractRange[])
}

declare namespace CSS {
  const highlights: Map<string, Highlight>
}

interface Window {
  Highlight?: typeof Highlight
}

interface Document {
  caretPositionFromPoint?(x: number, y: number): { offset: number } | null
}

declare class CompressionStream {
  constructor(format: string)
  readonly readable: ReadableStream<Uint8Array>
  readonly writable: WritableStream<Uint8Array>
}

declare class DecompressionStream extends CompressionStream {}
