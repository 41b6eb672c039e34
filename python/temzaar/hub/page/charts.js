// The charts: a figure over the last hour or day, as an SVG that is drawn here, with a cursor for the mouse and for the keyboard.

import { ageText, byId, clockText, makeElement, makeSvg, setText } from "./elements.js";

const HEIGHT = 128;
const LEFT = 40;
const RIGHT = 10;
const TOP = 8;
const BOTTOM = 22;
// The least width of a chart, and that of a label on the axis of time.
const LEAST_WIDTH = 220;
const LABEL_WIDTH = 72;
const HALF_LABEL = 17;
// Distances of marks on the axis of time, in minutes, and those of the greatest value of an axis: both the first that fits.
const MINUTES = [5, 10, 15, 30, 60, 120, 180, 240, 360, 720];
const TOPS = [2, 4, 6, 8, 10, 12, 16];
const PAGE_STEPS = 60;

const asCount = (value) => (Number.isInteger(value) ? String(value) : value.toFixed(1));

// The charts: the figure, its name, how a value is written, and the figure whose greatest value is drawn as a limit.
const CHARTS = [
  { figure: "slots_in_use", title: "Slots in use", text: asCount, limit: "slots_up", limitTitle: "slots that are up" },
  { figure: "queue_length", title: "Requests that wait", text: asCount },
  { figure: "longest_wait_seconds", title: "Longest wait", text: ageText },
  { figure: "registered_radios", title: "Registered radios", text: asCount },
  { figure: "carriers_up", title: "Carriers up", text: asCount },
];

// The charts of the controller's records: the counts that are drawn one on top of the other, each with its name.
const RECORD_CHARTS = [
  { figure: "calls_ended", title: "Calls that ended, by cause", text: asCount, what: ["call", "calls"], parts: [
    { count: "hang_time", name: "hang time" }, { count: "maximum", name: "maximum" }, { count: "radio_left", name: "radio left" },
    { count: "dropped", name: "dropped" }, { count: "ended_by_operator", name: "ended by operator" }, { count: "carrier_lost", name: "carrier lost" },
  ] },
  { figure: "refused", title: "Refused requests", text: asCount, what: ["request", "requests"], parts: [{ count: "refused", name: "refused" }] },
  { figure: "noise", title: "Noise", text: asCount, what: ["burst", "bursts"], parts: [{ count: "noise", name: "noise" }] },
];
// How many samples a bar is of: a minute of the last hour, 24 minutes of the last day.
const SAMPLES_A_BAR = 12;

const charts = new Map();
let history = null;

/** A chart: its elements, and the sample under its cursor. */
class Chart {
  constructor(spec) {
    this.spec = spec;
    this.cursor = null;
    this.summary = makeElement("p", { class: "summary" });
    this.readout = makeElement("p", { class: "readout", "aria-hidden": "true" });
    this.plot = makeElement("div", { class: "plot", tabindex: 0, role: "slider", "aria-label": `${spec.title}: time of a sample`, "aria-valuemin": 0, "aria-valuemax": 0, "aria-valuenow": 0,
      "aria-valuetext": "no samples yet" });
    this.element = makeElement("figure", { id: `chart-${spec.figure}` }, makeElement("figcaption", {}, makeElement("h3", {}, spec.title), this.summary), this.plot, this.readout);
    this.plot.addEventListener("pointermove", (event) => this.pointTo(event));
    this.plot.addEventListener("pointerleave", () => this.moveTo(null));
    this.plot.addEventListener("blur", () => this.moveTo(null));
    this.plot.addEventListener("keydown", (event) => this.pressKey(event));
  }

  /** Whether there is something to draw. */
  get isReady() {
    return history !== null;
  }

  get values() {
    return history.figures[this.spec.figure];
  }

  get count() {
    return history.pictures.length;
  }

  /** The seconds of a sample. */
  get step() {
    return history.step_seconds;
  }

  /** When the first sample begins. */
  get begins() {
    return Date.parse(history.begins);
  }

  get innerWidth() {
    return this.width - LEFT - RIGHT;
  }

  x(place) {
    return LEFT + (this.innerWidth * place) / this.count;
  }

  y(value) {
    return TOP + (HEIGHT - TOP - BOTTOM) * (1 - value / this.top);
  }

  timeOf(place) {
    return new Date(this.begins + place * this.step * 1000);
  }

  /** Draws all of it. */
  draw() {
    this.width = Math.max(LEAST_WIDTH, this.plot.clientWidth);
    this.pointer = makeSvg("g", { class: "cursor" });
    const svg = makeSvg("svg", { viewBox: `0 0 ${this.width} ${HEIGHT}`, width: this.width, height: HEIGHT, "aria-hidden": "true" }, ...this.shapes(), this.pointer);
    this.plot.replaceChildren(svg);
    this.plot.setAttribute("aria-valuemax", this.count - 1);
    setText(this.summary, this.summaryText());
    this.moveTo(this.cursor);
  }

  /** What is drawn. */
  shapes() {
    const limits = this.spec.limit ? history.figures[this.spec.limit].max : [];
    this.top = niceTop(Math.max(0, ...this.values.max.filter(isKnown), ...limits.filter(isKnown)));
    this.runs = knownRuns(this.values.mean);
    return [...this.gaps(), ...this.grid(), ...this.times(), ...this.bands(), ...this.lines(limits)];
  }

  /** The times without a picture, from a place to another. */
  get unknown() {
    return pairsOf([0, ...this.runs.flat(), this.count]);
  }

  /** Grey, where nothing is known. */
  gaps() {
    return this.unknown.map(([from, to]) => makeSvg("rect", { class: "gap", x: this.x(from), y: TOP, width: this.x(to) - this.x(from), height: HEIGHT - TOP - BOTTOM }));
  }

  /** The lines of the grid, with their values. */
  grid() {
    return [0, this.top / 2, this.top].flatMap((value) => [
      makeSvg("line", { class: "grid", x1: LEFT, x2: this.width - RIGHT, y1: this.y(value), y2: this.y(value) }),
      makeSvg("text", { class: "label", x: LEFT - 6, y: this.y(value) + 4, "text-anchor": "end" }, this.spec.text(value)),
    ]);
  }

  /** The marks of the axis of time. */
  times() {
    const minutes = (this.count * this.step) / 60;
    const fitting = Math.max(1, Math.floor(this.innerWidth / LABEL_WIDTH));
    const every = MINUTES.find((it) => minutes / it <= fitting) || MINUTES[MINUTES.length - 1];
    const marks = [];
    const first = this.timeOf(0);
    const mark = new Date(first.getFullYear(), first.getMonth(), first.getDate());
    const begins = first.getTime();
    const ends = this.timeOf(this.count).getTime();
    for (; mark.getTime() <= ends; mark.setMinutes(mark.getMinutes() + every)) {
      if (mark.getTime() < begins) {
        continue;
      }
      const x = LEFT + (this.innerWidth * (mark.getTime() - begins)) / (ends - begins);
      const anchor = x > this.width - HALF_LABEL ? "end" : x < HALF_LABEL ? "start" : "middle";
      marks.push(makeSvg("line", { class: "grid", x1: x, x2: x, y1: HEIGHT - BOTTOM, y2: HEIGHT - BOTTOM + 4 }));
      marks.push(makeSvg("text", { class: "label", x, y: HEIGHT - 6, "text-anchor": anchor }, clockText(mark, true)));
    }
    return marks;
  }

  /** The bands from the least to the greatest values. */
  bands() {
    return this.runs.map(([from, to]) => {
      const upper = this.corners(this.values.max, from, to);
      const lower = this.corners(this.values.min, from, to).reverse();
      return makeSvg("polygon", { class: "band", points: [...upper, ...lower].join(" ") });
    });
  }

  /** The lines of the means, and of the limit. */
  lines(limits) {
    const means = this.runs.map(([from, to]) => makeSvg("polyline", { class: "mean", points: this.corners(this.values.mean, from, to).join(" ") }));
    const bounds = knownRuns(limits).map(([from, to]) => makeSvg("polyline", { class: "limit", points: this.corners(limits, from, to).join(" ") }));
    return [...bounds, ...means];
  }

  /** The points of the values of a run: each sample is as wide as its time. */
  corners(values, from, to) {
    const points = [];
    for (let place = from; place < to; place += 1) {
      const y = this.y(values[place]).toFixed(1);
      points.push(`${this.x(place).toFixed(1)},${y}`, `${this.x(place + 1).toFixed(1)},${y}`);
    }
    return points;
  }

  summaryText() {
    const { text, limitTitle, limit } = this.spec;
    const known = this.values.mean.filter(isKnown);
    if (!known.length) {
      return "no samples yet";
    }
    const last = this.values.mean.findLastIndex(isKnown);
    const mean = known.reduce((sum, value) => sum + value, 0) / known.length;
    const most = limit ? history.figures[limit].max[last] : null;
    const limited = isKnown(most) ? ` of ${text(most)} ${limitTitle}` : "";
    return `now ${text(this.values.max[last])}${limited}; least ${text(Math.min(...this.values.min.filter(isKnown)))}, mean ${text(mean)}, greatest ${text(Math.max(...this.values.max.filter(isKnown)))}`;
  }

  /** Moves the cursor to a sample; null takes it away. */
  moveTo(place) {
    if (!this.isReady) {
      return;
    }
    this.cursor = place === null ? null : Math.min(this.count - 1, Math.max(0, place));
    this.pointer.replaceChildren();
    if (this.cursor === null) {
      setText(this.readout, "");
      this.setValue(this.count - 1, this.summary.textContent);
      return;
    }
    const said = `${clockText(this.timeOf(this.cursor))}: ${this.sampleText(this.cursor)}`;
    setText(this.readout, said);
    this.setValue(this.cursor, said);
    const x = this.x(this.cursor + 0.5);
    this.pointer.append(makeSvg("line", { x1: x, x2: x, y1: TOP, y2: HEIGHT - BOTTOM }));
  }

  /** Sets what a screen reader reads of the cursor. */
  setValue(place, said) {
    this.plot.setAttribute("aria-valuenow", place);
    this.plot.setAttribute("aria-valuetext", said);
  }

  sampleText(place) {
    const { text } = this.spec;
    const [least, mean, most] = [this.values.min, this.values.mean, this.values.max].map((column) => column[place]);
    if (!isKnown(mean)) {
      return "no picture";
    }
    return least === most ? text(most) : `mean ${text(mean)}, from ${text(least)} to ${text(most)}`;
  }

  pointTo(event) {
    if (this.isReady) {
      const box = this.plot.getBoundingClientRect();
      this.moveTo(Math.floor(((event.clientX - box.left - LEFT) / this.innerWidth) * this.count));
    }
  }

  pressKey(event) {
    if (!this.isReady) {
      return;
    }
    const steps = { ArrowLeft: -1, ArrowRight: 1, ArrowDown: -1, ArrowUp: 1, PageDown: -PAGE_STEPS, PageUp: PAGE_STEPS, Home: -this.count, End: this.count };
    if (event.key in steps) {
      event.preventDefault();
      this.moveTo((this.cursor ?? this.count - 1) + (this.cursor === null ? 0 : steps[event.key]));
    }
  }
}

/** A chart of counts of the controller's records, as bars. A bar is of some samples. */
class BarChart extends Chart {
  constructor(spec) {
    super(spec);
    if (spec.parts.length > 1) {
      const names = spec.parts.map((part, place) => makeElement("li", {}, makeElement("span", { class: `swatch bar-${place}`, "aria-hidden": "true" }), part.name));
      this.element.append(makeElement("ul", { class: "legend" }, ...names));
    }
  }

  get isReady() {
    return Boolean(history?.recorded);
  }

  get count() {
    return Math.ceil(history.pictures.length / SAMPLES_A_BAR);
  }

  get step() {
    return history.step_seconds * SAMPLES_A_BAR;
  }

  get begins() {
    return Date.parse(history.recorded.begins);
  }

  draw() {
    this.element.hidden = !this.isReady;
    if (this.isReady) {
      this.bars = this.spec.parts.map((part) => sums(history.recorded.counts[part.count]));
      this.totals = this.bars[0].map((_, place) => this.bars.reduce((sum, bars) => sum + bars[place], 0));
      super.draw();
    }
  }

  /** The place of a time, in bars, within the chart. */
  placeOf(time) {
    return Math.min(this.count, Math.max(0, (time - this.begins) / (this.step * 1000)));
  }

  /** The times without records, from a place to another: before the first term, gaps between terms, and after the last term. */
  get unknown() {
    const { from, until, gaps } = history.recorded;
    const edges = [from, ...gaps.flatMap((gap) => [gap.from, gap.to]), until].map(Date.parse);
    return pairsOf([-Infinity, ...edges, Infinity].map((time) => this.placeOf(time)));
  }

  shapes() {
    this.top = niceTop(Math.max(0, ...this.totals));
    return [...this.gaps(), ...this.grid(), ...this.times(), ...this.rectangles()];
  }

  rectangles() {
    const shapes = [];
    for (let place = 0; place < this.count; place += 1) {
      let below = 0;
      this.bars.forEach((bars, part) => {
        if (bars[place]) {
          const [from, to] = [this.y(below + bars[place]), this.y(below)];
          shapes.push(makeSvg("rect", { class: `bar-${part}`, x: this.x(place) + 0.5, y: from, width: Math.max(1, this.x(1) - this.x(0) - 1), height: to - from }));
          below += bars[place];
        }
      });
    }
    return shapes;
  }

  /** A number of calls, requests or bursts, with the parts that it is of. */
  countText(counts) {
    const all = counts.reduce((sum, count) => sum + count, 0);
    const parts = this.spec.parts.map((part, place) => [counts[place], part.name]).filter(([count]) => count);
    const said = `${all} ${this.spec.what[all === 1 ? 0 : 1]}`;
    return this.spec.parts.length > 1 && parts.length ? `${said}: ${parts.map(([count, name]) => `${count} ${name}`).join(", ")}` : said;
  }

  summaryText() {
    return `${this.countText(this.bars.map((bars) => bars.reduce((sum, count) => sum + count, 0)))}; up to ${clockText(new Date(history.recorded.until))}`;
  }

  sampleText(place) {
    const unknown = this.unknown.reduce((sum, [from, to]) => sum + Math.max(0, Math.min(to, place + 1) - Math.max(from, place)), 0);
    if (unknown > 0.99) {
      return "not recorded";
    }
    return `${this.countText(this.bars.map((bars) => bars[place]))}${unknown > 0.01 ? "; a part is not recorded" : ""}`;
  }
}

/** The sums of the samples of each bar. */
function sums(counts) {
  const found = [];
  for (let place = 0; place < counts.length; place += SAMPLES_A_BAR) {
    found.push(counts.slice(place, place + SAMPLES_A_BAR).reduce((sum, count) => sum + count, 0));
  }
  return found;
}

/** The pairs of a list of places, from the first of each to its second, unless these are the same. */
function pairsOf(places) {
  return places.flatMap((from, index) => (index % 2 === 0 && places[index + 1] > from ? [[from, places[index + 1]]] : []));
}

function isKnown(value) {
  return value !== null;
}

/** The greatest value of an axis: an even number, at least as great as all that is drawn. */
function niceTop(greatest) {
  for (let scale = 1; ; scale *= 10) {
    const found = TOPS.find((it) => it * scale >= greatest);
    if (found) {
      return found * scale;
    }
  }
}

/** The runs of samples that are known: from each first one to the one after its last. */
function knownRuns(values) {
  const runs = [];
  values.forEach((value, place) => {
    if (isKnown(value) && (place === 0 || !isKnown(values[place - 1]))) {
      runs.push([place, place + 1]);
    } else if (isKnown(value)) {
      runs[runs.length - 1][1] = place + 1;
    }
  });
  return runs;
}

/** Makes the charts, and draws them again when their width changes. */
export function makeCharts() {
  for (const spec of CHARTS) {
    charts.set(spec.figure, new Chart(spec));
  }
  for (const spec of RECORD_CHARTS) {
    const chart = new BarChart(spec);
    chart.element.hidden = true;
    charts.set(spec.figure, chart);
  }
  byId("charts-grid").append(...[...charts.values()].map((chart) => chart.element));
  new ResizeObserver(() => drawCharts()).observe(byId("charts-grid"));
}

/** Draws the samples of a span. */
export function drawCharts(view = history) {
  history = view;
  if (history) {
    charts.forEach((chart) => chart.draw());
  }
}
