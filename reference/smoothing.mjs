// Smoothing by its definition: the extension, the K-fold kernel, then one sum a cell.
// There are no passes and no running sums here, so a mistake in those cannot be repeated here.
// Plain numbers are exact: the taps are never negative and sum to the divisor, so every tap, product and partial
// sum has size at most M times the divisor, which is below 2^53 whenever a call gets as far as this file.
// A plan is { radius, inner, edge, passes }; its fields may be plain numbers or BigInt.

// The index of the sample that the extension of `length` samples reads at `index`.
export function fold(index, length) {
  while (index < 0 || index >= length) {
    index = index < 0 ? -1 - index : 2 * length - 1 - index;
  }
  return index;
}

// The taps of one pass, from -(r+1) to r+1.
export function tapRow(plan) {
  const inner = new Array(2 * Number(plan.radius) + 1).fill(Number(plan.inner));
  return [Number(plan.edge), ...inner, Number(plan.edge)];
}

export function convolve(left, right) {
  const product = new Array(left.length + right.length - 1).fill(0);
  for (let i = 0; i < left.length; i++) {
    for (let j = 0; j < right.length; j++) {
      product[i + j] += left[i] * right[j];
    }
  }
  return product;
}

// The K-fold kernel, from -K(r+1) to K(r+1). Its middle element is tap 0.
export function kernelOf(plan) {
  const row = tapRow(plan);
  let kernel = row;
  for (let factors = 1; factors < Number(plan.passes); factors++) {
    kernel = convolve(kernel, row);
  }
  return kernel;
}

export function centreOf(kernel) {
  return (kernel.length - 1) / 2;
}

// D^K as a BigInt, so that it is exact for plans that are refused too.
export function divisorOf(plan) {
  const sum = (2n * BigInt(plan.radius) + 1n) * BigInt(plan.inner) + 2n * BigInt(plan.edge);
  return sum ** BigInt(plan.passes);
}

export function reachOf(plan) {
  const onePass = Number(plan.edge) > 0 ? Number(plan.radius) + 1 : Number(plan.radius);
  return Number(plan.passes) * onePass;
}

// The result at n: the sum over m of tap m times the extension at n - m.
export function resultAt(kernel, samples, n) {
  const centre = centreOf(kernel);
  let sum = 0;
  for (let m = -centre; m <= centre; m++) {
    sum += kernel[centre + m] * samples[fold(n - m, samples.length)];
  }
  return sum;
}

export function seriesResults(plan, samples) {
  const kernel = kernelOf(plan);
  return Array.from(samples, (_, n) => resultAt(kernel, samples, n));
}

// The indices that the extension reads for the taps of a kernel in turn.
function indicesRead(kernel, n, length) {
  const centre = centreOf(kernel);
  return kernel.map((_, at) => fold(n - (at - centre), length));
}

// The result at column x of row y: the double sum over both kernels.
export function pictureResultAt(across, down, { samples, width, height }, x, y) {
  const columns = indicesRead(across, x, width);
  const rows = indicesRead(down, y, height);
  let sum = 0;
  for (let j = 0; j < down.length; j++) {
    for (let i = 0; i < across.length; i++) {
      sum += down[j] * across[i] * samples[rows[j] * width + columns[i]];
    }
  }
  return sum;
}

export function pictureByDoubleSum(across, down, picture) {
  return Array.from(picture.samples, (_, index) => {
    const x = index % picture.width;
    return pictureResultAt(across, down, picture, x, (index - x) / picture.width);
  });
}

// The same results by one sum along the row and then one along the column. Only for pictures on which the double
// sum takes too long; the self-test compares both on small pictures.
export function pictureBySeparateSums(across, down, { samples, width, height }) {
  const along = new Float64Array(samples.length);
  const results = new Array(samples.length);
  for (let y = 0; y < height; y++) {
    const row = samples.slice(y * width, (y + 1) * width);
    for (let x = 0; x < width; x++) along[y * width + x] = resultAt(across, row, x);
  }
  for (let x = 0; x < width; x++) {
    const column = Float64Array.from({ length: height }, (_, y) => along[y * width + x]);
    for (let y = 0; y < height; y++) results[y * width + x] = resultAt(down, column, y);
  }
  return results;
}

const MOST_PRODUCTS = 50_000_000;

export function pictureResults(planAcross, planDown, picture) {
  const [across, down] = [kernelOf(planAcross), kernelOf(planDown)];
  const products = picture.samples.length * across.length * down.length;
  const sums = products <= MOST_PRODUCTS ? pictureByDoubleSum : pictureBySeparateSums;
  return sums(across, down, picture);
}

// The weight of sample p in the result at n: the taps at all m whose index n - m reads sample p.
export function weightAt(kernel, length, p, n) {
  const centre = centreOf(kernel);
  let weight = 0;
  for (let m = -centre; m <= centre; m++) {
    if (fold(n - m, length) === p) weight += kernel[centre + m];
  }
  return weight;
}

// The largest of 0 .. most with the property, which the lower ones have too; found by halving.
function largest(most, property) {
  let [found, left] = [0n, most];
  while (found < left) {
    const middle = (found + left + 1n) / 2n;
    if (property(middle)) found = middle;
    else left = middle - 1n;
  }
  return found;
}

// The survey's edge weight for sigma in hundredths, times the inner weight: the radius it stands at, and the value as
// a fraction, in BigInt.
export function surveyEdge(sigma, passes, inner) {
  const q = 10_000n * passes;
  const square = sigma * sigma;
  const radius = largest(sigma, (r) => r * (r + 1n) * q <= 3n * square);
  const over = inner * (2n * radius + 1n) * (3n * square - radius * (radius + 1n) * q);
  const under = 6n * ((radius + 1n) * (radius + 1n) * q - square);
  return { radius, over, under };
}

// Radius and edge weight: the nearest, a half going down. One as heavy as the inner weight is one radius more.
export function planFor(sigma, passes, inner) {
  const { radius, over, under } = surveyEdge(sigma, passes, inner);
  const below = over / under;
  const edge = 2n * (over - below * under) > under ? below + 1n : below;
  return edge === inner ? { radius: radius + 1n, edge: 0n } : { radius, edge };
}
