// The limits of the table of refusals.

export const MOST_PASSES = 8n;
export const MOST_RADIUS = 1023n;
export const MOST_INNER = 255n;
export const MOST_BOUND = 2n ** 31n - 1n;
export const MOST_PRODUCT = 2n ** 53n - 1n;
export const MOST_RESULT = MOST_PRODUCT;
export const MOST_CELLS = 65_536n;
export const MOST_SIDE = 4_096n;
export const MOST_SIGMA = 25_600n;
export const MOST_MODE = 1n;

export function size(value) {
  return value < 0n ? -value : value;
}

export function outside(value, least, most) {
  return value < least || value > most;
}
