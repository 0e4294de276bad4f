// Charts as SVG, by hand: lines over a growing quantity, and bars. Both axes of a chart of lines may be logarithmic.

const [WIDTH, HEIGHT] = [880, 460];
const BOX = { left: 78, right: 262, top: 68, bottom: 56 };
const COLOURS = ['#d9480f', '#1971c2', '#2f9e44', '#9c36b5', '#c2255c', '#0c8599', '#a07000', '#6c757d', '#5f3dc4'];
const [LABEL_HEIGHT, BAR_HEIGHT] = [17, 24];

const STYLE = `<style>
  .paper { fill: #ffffff } .ink { fill: #1f2328 } .grid { stroke: #d0d7de } text { font: 13px sans-serif }
  .title { font-size: 16px; font-weight: bold }
  @media (prefers-color-scheme: dark) { .paper { fill: #0d1117 } .ink { fill: #e6edf3 } .grid { stroke: #3d444d } }
</style>`;

const escaped = (text) => String(text).replaceAll('&', '&amp;').replaceAll('<', '&lt;');
const text = (x, y, words, more = '') => (
  `<text class="ink" x="${x.toFixed(1)}" y="${y.toFixed(1)}" ${more}>${escaped(words)}</text>`);
const line = (x, y, u, v, more) => (
  `<line x1="${x.toFixed(1)}" y1="${y.toFixed(1)}" x2="${u.toFixed(1)}" y2="${v.toFixed(1)}" ${more}/>`);

function page(width, height, title, parts) {
  return [
    `<svg xmlns="http://www.w3.org/2000/svg" viewBox="0 0 ${width} ${height}" width="${width}" height="${height}" `
      + 'role="img">',
    `<title>${escaped(title)}</title>`, STYLE,
    `<rect class="paper" width="${width}" height="${height}"/>`,
    text(18, 28, title, 'class="ink title"').replace('class="ink" ', ''),
    ...parts, '</svg>', '',
  ].join('\n');
}

// Steps of 1, 2 and 5 about the values, so that the axis begins and ends at one.
function logTicks(least, most) {
  const steps = [];
  for (let power = Math.floor(Math.log10(least)) - 1; power <= Math.ceil(Math.log10(most)); power += 1) {
    steps.push(...[1, 2, 5].map((step) => step * 10 ** power));
  }
  const first = steps.findLastIndex((step) => step <= least);
  return steps.slice(first, steps.findIndex((step) => step >= most) + 1);
}

function scale(from, to, start, end, isLog) {
  const put = isLog ? Math.log : (value) => value;
  return (value) => start + ((put(value) - put(from)) / (put(to) - put(from))) * (end - start);
}

const plainly = (number) => Number(number.toPrecision(3)).toLocaleString('en-US', { maximumFractionDigits: 6 });

// Labels at the lines' ends, moved apart.
function labelled(ends) {
  const sorted = [...ends].sort((one, other) => one.y - other.y);
  sorted.forEach((each, n) => {
    each.at = n === 0 ? each.y : Math.max(each.y, sorted[n - 1].at + LABEL_HEIGHT);
  });
  const over = sorted.length === 0 ? 0 : Math.max(0, sorted.at(-1).at - (HEIGHT - BOX.bottom));
  return sorted.map(({ name, colour, at }) => (
    text(WIDTH - BOX.right + 12, at - over + 4, name, `style="fill:${colour}"`)));
}

// lines: name and points of x, low, median and high. The first is ours, drawn thick. Quartiles are thin bars.
export function lineChart({ title, across, up, lines, logX = true }) {
  const drawn = lines.filter(({ points }) => points.length > 0);
  const all = drawn.flatMap(({ points }) => points);
  if (all.length === 0) return page(WIDTH, 80, title, [text(18, 58, 'nothing was timed')]);
  const ticks = logTicks(Math.min(...all.map(({ low }) => low)), Math.max(...all.map(({ high }) => high)));
  const xs = [...new Set(all.map(({ x }) => x))].sort((one, other) => one - other);
  const [right, bottom] = [WIDTH - BOX.right, HEIGHT - BOX.bottom];
  const toX = scale(xs[0], xs.at(-1), BOX.left + 12, right - 12, logX);
  const toY = scale(ticks[0], ticks.at(-1), bottom, BOX.top, true);
  const grid = ticks.flatMap((tick) => [
    line(BOX.left, toY(tick), right, toY(tick), 'class="grid"'),
    text(BOX.left - 8, toY(tick) + 4, plainly(tick), 'text-anchor="end"'),
  ]);
  const below = xs.map((x) => text(toX(x), bottom + 20, x.toLocaleString('en-US'), 'text-anchor="middle"'));
  const ends = [];
  const strokes = drawn.flatMap(({ name, points }, n) => {
    const colour = COLOURS[n % COLOURS.length];
    const path = points.map(({ x, median }) => `${toX(x).toFixed(1)},${toY(median).toFixed(1)}`).join(' ');
    ends.push({ name, colour, y: toY(points.at(-1).median) });
    return [
      `<polyline fill="none" stroke="${colour}" stroke-width="${n === 0 ? 3.5 : 1.8}" points="${path}"/>`,
      ...points.map(({ x, low, high }) => line(toX(x), toY(low), toX(x), toY(high), `stroke="${colour}"`)),
    ];
  });
  return page(WIDTH, HEIGHT, title, [
    ...grid, ...below, ...strokes, ...labelled(ends),
    text((BOX.left + right) / 2, HEIGHT - 12, across, 'text-anchor="middle"'), text(18, 46, up),
  ]);
}

// bars: name, value and whether it is ours. They start at 0; one that is longer than the chart is cut, and its number
// stands all the same.
export function barChart({ title, up, bars, most }) {
  const [left, right] = [340, WIDTH - 90];
  const height = 70 + BAR_HEIGHT * bars.length;
  const longest = Math.min(most, Math.max(...bars.map(({ value }) => value)));
  const parts = bars.flatMap(({ name, value, isOurs }, n) => {
    const y = 58 + BAR_HEIGHT * n;
    const length = (Math.min(value, longest) / longest) * (right - left);
    const colour = isOurs ? COLOURS[0] : COLOURS[7];
    return [
      text(left - 10, y + 13, name, 'text-anchor="end"'),
      `<rect x="${left}" y="${y}" width="${Math.max(1, length).toFixed(1)}" height="${BAR_HEIGHT - 7}" fill="${colour}"/>`,
      text(left + length + 6, y + 13, `${value > longest ? '… ' : ''}${plainly(value)}`),
    ];
  });
  return page(WIDTH, height, title, [text(18, 46, up), ...parts]);
}
