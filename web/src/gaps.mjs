// Room for notes between the lines of a text, and which line is at a height.

export class Gaps {
  constructor() {
    this.list = [];
  }

  /** Puts a gap under each of these lines, `{ line, tall }`; several under one line are one. */
  set(gaps) {
    const sums = new Map();
    for (const { line, tall } of gaps) sums.set(line, (sums.get(line) ?? 0) + tall);
    this.list = [...sums].map(([line, tall]) => ({ line, tall })).sort((one, other) => one.line - other.line);
  }

  get total() {
    return this.above(Infinity);
  }

  /** How much lower a line is for the gaps above it. */
  above(line) {
    return this.list.reduce((sum, it) => (it.line < line ? sum + it.tall : sum), 0);
  }

  /** How tall the gap under a line is. */
  under(line) {
    return this.list.find((it) => it.line === line)?.tall ?? 0;
  }

  /** The line at a height below the first line's top; a gap counts to the line above it. */
  lineAt(height, lineHeight) {
    let line = 1, top = 0;
    for (const it of this.list) {
      const end = top + (it.line - line + 1) * lineHeight + it.tall;
      if (height < end) break;
      [line, top] = [it.line + 1, end];
    }
    const gap = this.list.find((it) => it.line >= line), last = gap?.line ?? Infinity;
    return Math.min(last, line + Math.max(0, Math.floor((height - top) / lineHeight)));
  }
}
