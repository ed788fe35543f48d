// The coordinate systems that a machine file has origins for, in its order.
export const SYSTEMS = ['G54', 'G55', 'G56', 'G57', 'G58', 'G59', 'G59.1', 'G59.2', 'G59.3'];
export const AXES = ['X', 'Y', 'Z'];
