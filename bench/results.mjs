// The page of results and its charts, from the figures of a run.
import { aimRows } from './aims.mjs';
import { barChart, lineChart } from './charts.mjs';
import { LIBRARIES } from './machine.mjs';
import { MEASURES, PROGRAMS, byId } from './names.mjs';
import { written } from './statistics.mjs';
import { EDITS, GROWTH, NEAREST, OUTPUTS, PICTURES, RECORD, REFUSED, SERIES, planText } from './works.mjs';

const OURS = 'c-ours';
const OURS_IN_PYTHON = 'python-ours';
const IN_PYTHON = new Set(Object.keys(LIBRARIES));
const OURS_IN_JS = ['js-ours-resident', 'js-ours', 'js-ours-int32'];
const SMOOTHERS = [
  'c-ours', 'c-separate', 'c-fused', 'js-ours-resident', 'js-best', 'numpy', 'scipy-convolve', 'opencv-filter',
  'opencv-box',
];

const row = (cells) => `| ${cells.join(' | ')} |`;
const table = (head, rows) => [row(head), row(head.map(() => '---')), ...rows.map(row)];
const many = (number) => number.toLocaleString('en-US');

const groupOf = (work, measure, title, unit) => ({ work, measure, title, unit });

// What the table has, in its order.
const GROUPS = [
  ...SERIES.map((work) => groupOf(work, 'smooth', `series of ${many(work.width)}, plan ${planText(work.plan)}`,
    'a cell')),
  ...PICTURES.map((work) => groupOf(work, 'smooth',
    `picture of ${work.width} by ${work.height}, plan ${planText(work.plan)} each way`, 'a cell')),
  ...['edit', 'point'].flatMap((measure) => EDITS.map((work) => groupOf(work, measure,
    `${measure} at reach ${many(work.plan.passes * (work.plan.radius + 1))}, series of ${many(work.width)}`,
    'a call'))),
  ...Object.entries(MEASURES).map(([measure, title]) => groupOf(OUTPUTS, measure,
    `${title}, ${many(OUTPUTS.width)} cells, plan ${planText(OUTPUTS.plan)}`, 'a cell')),
  groupOf(RECORD, 'read_record', `a record of ${many(RECORD.width)} samples read`, 'a sample'),
];

export class Page {
  #figures;
  #outcomes;
  #cc;

  constructor(figures, outcomes, cc) {
    this.#figures = figures;
    this.#cc = cc;
    this.#outcomes = new Map(outcomes.map((each) => [`${each.work.name} ${each.measure} ${each.id}`, each]));
  }

  #title(id) {
    return byId.get(id).title.replace('CC', this.#cc);
  }

  #short(id) {
    return byId.get(id).short.replace('CC', this.#cc);
  }

  #results(work, measure, id) {
    const { limit } = byId.get(id);
    if (id === OURS || limit) return '';
    const { same, apart } = this.#outcomes.get(`${work.name} ${measure} ${id}`) ?? {};
    if (apart !== undefined) return `up to ${written(apart.all)} apart, ${written(apart.within)} away from the ends`;
    if (same === undefined) return 'not compared';
    return same ? 'same' : '**other**';
  }

  #group({ work, measure, title, unit }) {
    const figure = (id) => this.#figures.of(work, measure, id);
    const inJs = OURS_IN_JS.find((id) => figure(id) !== undefined);
    // where ours was timed in turns with the program, that figure is the one to compare with
    const inTurns = (id) => (IN_PYTHON.has(byId.get(id).part) && figure(OURS_IN_PYTHON) !== undefined
      ? OURS_IN_PYTHON : OURS);
    const ratio = (id, to) => (figure(to) === undefined ? '' : written(figure(id).median / figure(to).median));
    const rows = PROGRAMS.filter(({ id }) => figure(id) !== undefined).map(({ id }) => {
      const { low, median, high } = figure(id);
      return [this.#title(id), written(median), `${written(low)} to ${written(high)}`, ratio(id, inTurns(id)),
        inJs === undefined ? '' : ratio(id, inJs), this.#results(work, measure, id)];
    });
    const refused = work === NEAREST
      ? [[`**radius ${REFUSED.plan.radius}, ${REFUSED.plan.passes} passes: refused under every bound, by `
        + `${REFUSED.number}; the largest radius accepted is ${work.plan.radius}**`, '', '', '', '', '']] : [];
    return [...refused, [`**${title}**`, `**ns ${unit}**`, '', '', '', ''], ...rows];
  }

  #table() {
    const head = ['', 'median', 'quartiles', 'to ours, C', 'to ours, JavaScript', 'results'];
    return table(head, GROUPS.flatMap((group) => this.#group(group)));
  }

  #points(works, measure, id, quantity) {
    return works.map((work) => ({ x: quantity(work), ...this.#figures.of(work, measure, id) }))
      .filter(({ median }) => median !== undefined);
  }

  #growth(works, quantity) {
    return SMOOTHERS.map((id) => ({ name: this.#short(id), points: this.#points(works, 'smooth', id, quantity) }));
  }

  #reaches() {
    const reach = ({ plan: { radius, passes } }) => passes * (radius + 1);
    const lines = [
      ['edit', 'c-ours'], ['point', 'c-ours'], ['edit', 'c-taps'], ['edit', 'js-ours-resident'], ['edit', 'js-taps'],
      ['edit', 'c-ours-fresh'],
    ];
    return lines.map(([measure, id]) => ({
      name: `${measure}: ${this.#short(id)}`, points: this.#points(GROWTH.reach, measure, id, reach),
    }));
  }

  // Name of the file, and the chart.
  get charts() {
    const up = 'ns a cell, median and quartiles';
    const main = SERIES[1];
    const bars = PROGRAMS.filter(({ id }) => id !== 'postgresql' && id !== OURS_IN_PYTHON)
      .map(({ id }) => ({ id, figure: this.#figures.of(main, 'smooth', id) }))
      .filter(({ figure }) => figure !== undefined)
      .map(({ id, figure }) => ({ name: this.#short(id), value: figure.median, isOurs: id.includes('ours') }));
    const ours = this.#figures.of(main, 'smooth', OURS)?.median ?? Infinity;
    const of = (title, across, works, quantity, logX) => lineChart({
      title, across, up, lines: this.#growth(works, quantity), logX,
    });
    return {
      smoothing: barChart({
        title: `Smoothing ${many(main.width)} samples by the plan ${planText(main.plan)}`, up: 'ns a cell, median',
        bars, most: 25 * ours,
      }),
      length: of('Cost over the length, plan (5, 2, 1, 3)', 'samples', GROWTH.length, ({ width }) => width),
      radius: of('Cost over the radius, plan (r, 2, 1, 3), 65,536 samples', 'radius', GROWTH.radius,
        ({ plan }) => plan.radius),
      passes: of('Cost over the passes, plan (5, 2, 1, K), 65,536 samples', 'passes', GROWTH.passes,
        ({ plan }) => plan.passes, false),
      reach: lineChart({
        title: 'An edit and a point over the reach, 65,536 samples', across: 'reach',
        up: 'ns a call, median and quartiles', lines: this.#reaches(),
      }),
    };
  }

  // The numbers of a chart's lines.
  #numbers(lines) {
    const there = lines.filter(({ points }) => points.length > 0);
    const xs = [...new Set(there.flatMap(({ points }) => points.map(({ x }) => x)))];
    const rows = there.map(({ name, points }) => [name, ...xs.map((x) => {
      const point = points.find((each) => each.x === x);
      return point === undefined ? '' : `${written(point.median)} (${written(point.low)} to ${written(point.high)})`;
    })]);
    return ['<details><summary>numbers: median (quartiles)</summary>', '', ...table(['', ...xs.map(many)], rows), '',
      '</details>'];
  }

  text({ machine, left, emulated }) {
    const [fewest, most] = this.#figures.size === 0 ? [0, 0] : this.#figures.rounds;
    const growth = {
      length: this.#growth(GROWTH.length, ({ width }) => width),
      radius: this.#growth(GROWTH.radius, ({ plan }) => plan.radius),
      passes: this.#growth(GROWTH.passes, ({ plan }) => plan.passes),
      reach: this.#reaches(),
    };
    const rounded = PROGRAMS.filter((each) => each.rounded !== undefined && !left.includes(each.title.split(',')[0]));
    return [
      '# Results', '',
      '`bench/run` wrote this page.', '',
      ...machine.map(({ name, what }) => `- ${name.replace('CC', this.#cc)}: ${what}`),
      ...emulated.map(({ name, why }) => `- **${name} runs emulated (${why}): no times of it**`),
      ...(left.length === 0 ? [] : [`- not installed, left out: ${left.join(', ')}`]),
      `- ${fewest} to ${most} rounds a figure`, '',
      '## Aims', '',
      `Smoothing is that of ${many(SERIES[1].width)} samples by the plan ${planText(SERIES[1].plan)}.`, '',
      ...table(['', 'aim', 'figure', ''], aimRows(this.#figures, this.#cc)), '',
      '## How cost grows', '',
      ...Object.entries(growth).flatMap(([name, lines]) => [`![${name}](charts/${name}.svg)`, '',
        ...this.#numbers(lines), '']),
      '## Table', '',
      '![smoothing](charts/smoothing.svg)', '',
      'Ratios are times over ours: above 1 is slower than ours. Results are compared with those of Dungdapple from C,',
      'byte for byte; where a program rounds, by how far its smoothed values are apart from ours.', '',
      ...rounded.map(({ title, rounded: why }) => `- ${title}: ${why}`), '',
      ...this.#table(), '',
    ].join('\n');
  }
}
