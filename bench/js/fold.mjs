// The index of the sample at place i of the extension, which repeats after twice the length.
export function fold(i, n) {
  const period = 2 * n;
  const at = ((i % period) + period) % period;
  return at < n ? at : period - 1 - at;
}
