// Where the map of `ngc draw --map` is on the block of material. Its cells are squares, the first at the block's lowest X and Y, so that the last
// ones of a row or a column may reach beyond the block.

const MOST = 250_000;     // cells
const STEP = 10_000;      // nm: the width of a cell is a multiple of it, the least with which there are no more cells
const WIDEST = 200_000;   // times STEP

// The share of the picture that is on the block, along X and Y. The lengths of the block are millimetres.
export function shareOf({ low, high }, { width, height }) {
  const [x, y] = [0, 1].map(axis => Math.round((high[axis] - low[axis]) * 1e6)), cells = (length, number) => Math.ceil(length / (number * STEP));
  let number = Math.max(1, Math.floor(Math.sqrt(x * y / MOST) / STEP));
  while (number < WIDEST && cells(x, number) * cells(y, number) > MOST) number++;
  const side = width / cells(x, number);
  // A picture of other cells is laid over the whole block.
  return Number.isInteger(side) && height === side * cells(y, number) ? [x, y].map(it => it / (cells(it, number) * number * STEP)) : [1, 1];
}
