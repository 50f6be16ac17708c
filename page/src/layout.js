// Where the steps and the members stand in the diagram.

export const LEFT = 84;
const TOP = 44;
const BOTTOM = 46;
// Between the lines of members, of groups up to so many.
const LANES = [[5, 66], [8, 54], [16, 42]];

const laneOf = (columns) => LANES.find(([most]) => columns.members.length <= most)[1];

export const heightOf = (columns) => TOP + Math.max(0, columns.members.length - 1) * laneOf(columns) + BOTTOM;

// Where things stand: of the columns, the width of one, the window `from` to before `to`, and how far left of the picture the first
// column begins.
export class Layout {
  constructor(columns, width, { from, to, left }) {
    Object.assign(this, { columns, width, left, from: Math.min(from, columns.length), to: Math.min(to, columns.length) });
    this.radius = Math.min(10.5, width * 0.42);
    this.lane = laneOf(columns);
    this.height = heightOf(columns);
  }

  x(column) {
    return LEFT + (column + 0.5) * this.width - this.left;
  }

  y(member) {
    return TOP + this.columns.rows.get(member) * this.lane;
  }
}
