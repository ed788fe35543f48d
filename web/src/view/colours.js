// The colours of the tools and of the feeds, which differ for most kinds of colour blindness too.

export const TOOL_COLOURS = ['#0a72c2', '#e08a00', '#009e73', '#cc6fa6', '#3fa7e0', '#7a5bd0', '#7d4a66', '#b59a50'];
export const RAMP = ['#3b2e9e', '#1a9e8f', '#f7bd26'];
export const toolColour = (path, tool) => TOOL_COLOURS[Math.max(0, path.order.indexOf(tool)) % TOOL_COLOURS.length];
// Red, green and blue from 0 to 1.
export const partsOf = hex => [1, 3, 5].map(at => parseInt(hex.slice(at, at + 2), 16) / 255);
// The colours of the map of the finished part, as docs/REPORTS.md lists them, with their meaning.
export const PART_COLOURS = [['#aac8e6', 'not cut'], ['linear-gradient(90deg, #e0e0e0, #303030)', 'cut: the darker, the deeper'], ['#00286e', 'nothing left'], ['#e60000', 'may touch material']];
