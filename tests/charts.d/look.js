// Looks at charts in the browser, for tests/charts: each is open in a frame of this page, and as a picture beside it. What is due stands in `charts`, which
// the page has before this. What is found against a chart is left in the page as JSON: for each chart a list of findings to each kind of check.
'use strict';
const NEAR = 0.5; // pixels
const WINDOW = 12; // quarters
const DARK = 120; // of 255: load and baseline are darker, chosen days and shading lighter

const clock = (quarter) => {
  const minute = (60 + 15 * quarter) % 1440;
  return [Math.floor(minute / 60), minute % 60].map((part) => String(part).padStart(2, '0')).join(':');
};
const near = (one, other, by = NEAR) => Math.abs(one - other) <= by;
const middle = (box) => [(box.left + box.right) / 2, (box.top + box.bottom) / 2];
const meet = (one, other) => one.left < other.right && other.left < one.right && one.top < other.bottom && other.top < one.bottom;
const place = (box) => [box.left, box.top, box.right, box.bottom].map((value) => value.toFixed(1)).join(' ');

// A chart that is open: its elements, where they stand on the screen, and the scale that the file states.
class Chart {
  constructor(due) {
    this.due = due;
    this.window = document.getElementById(`frame ${due.name}`).contentWindow;
    this.svg = this.window.document.documentElement;
    if (this.svg.tagName !== 'svg' || this.svg.querySelector('parsererror')) throw Error('it is not well formed');
    this.found = Object.fromEntries(Object.keys(CHECKS).map((kind) => [kind, []]));
    this.texts = [...this.svg.querySelectorAll('text')];
    this.boxes = this.texts.map((text) => text.getBoundingClientRect());
    const axes = this.svg.querySelector('g.axes');
    const at = (name) => Number(axes.getAttribute(`data-${name}`));
    this.from = at('from');
    this.to = at('to');
    this.low = at('kw-low');
    this.high = at('kw-high');
    const [left, right] = ['x-from', 'x-to'].map((name) => onScreen(axes, at(name), 0).x);
    const [bottom, top] = ['y-low', 'y-high'].map((name) => onScreen(axes, 0, at(name)).y);
    this.plot = {left, right, top, bottom};
  }
  across(quarter) {
    return this.plot.left + (this.plot.right - this.plot.left) * (quarter - this.from) / (this.to - this.from);
  }
  up(kw) {
    return this.plot.bottom + (this.plot.top - this.plot.bottom) * (kw - this.low) / (this.high - this.low);
  }
  all(selector) {
    return [...this.svg.querySelectorAll(selector)].filter((element) => !element.closest('defs'));
  }
  style(element) {
    return this.window.getComputedStyle(element);
  }
  labelled(words) {
    return this.texts.find((text) => text.textContent === words);
  }
}

const onScreen = (element, x, y) => new DOMPoint(x, y).matrixTransform(element.getScreenCTM());
const read = new Map(); // the strokes of paths that were read

// The strokes of a path, on the screen: [x, y, x, y] of each. A path of other letters, or one that the browser measures otherwise, is none.
function strokes(path) {
  if (read.has(path)) return read.get(path);
  const made = [], {a, b, c, d, e, f} = path.getScreenCTM(), point = (x, y) => [a * x + c * y + e, b * x + d * y + f];
  let x = 0, y = 0, length = 0;
  for (const [, letter, rest] of path.getAttribute('d').matchAll(/([a-zA-Z])([^a-zA-Z]*)/g)) {
    const numbers = rest.split(/[ ,]+/).filter((word) => word !== '').map(Number);
    const wide = 'Hh'.includes(letter), high = 'Vv'.includes(letter), own = letter === letter.toLowerCase();
    if (!'MLHVmlhv'.includes(letter) || numbers.length !== (wide || high ? 1 : 2)) throw Error(`a path with ${letter}${rest}`);
    const toX = high ? x : numbers[0] + (own ? x : 0), toY = wide ? y : numbers[high ? 0 : 1] + (own ? y : 0);
    if (!'Mm'.includes(letter)) {
      made.push([...point(x, y), ...point(toX, toY)]);
      length += Math.hypot(toX - x, toY - y);
    }
    [x, y] = [toX, toY];
  }
  if (!near(length, path.getTotalLength(), 0.1)) throw Error(`a path of length ${path.getTotalLength()}, read as ${length}`);
  read.set(path, made);
  return made;
}

// The box of a path, without the width of its stroke.
function bounds(path) {
  const all = strokes(path), x = all.flatMap(([from, , to]) => [from, to]), y = all.flatMap(([, from, , to]) => [from, to]);
  return {left: Math.min(...x), right: Math.max(...x), top: Math.min(...y), bottom: Math.max(...y)};
}

// The heights at which strokes stand over a place of the ruler's axis.
function heights(lines, x) {
  const over = lines.filter(([from, , to]) => Math.min(from, to) < x && x < Math.max(from, to));
  return over.map(([from, start, to, end]) => start + (end - start) * (x - from) / (to - from));
}

// A line: at each quarter from the first on where its value puts it, and nothing where that is null.
function line(chart, path, first, values) {
  const lines = strokes(path), found = [];
  values.forEach((value, i) => {
    const [left, right] = [chart.across(first + i), chart.across(first + i + 1)], rim = (right - left) / 10;
    if (value === null) {
      const filled = lines.filter(([x, , to]) => Math.min(x, to) < right - rim && Math.max(x, to) > left + rim);
      if (filled.length > 0) found.push(`quarter ${first + i} is missing, and is drawn`);
      return;
    }
    for (const x of [left + rim, (left + right) / 2, right - rim]) {
      const at = heights(lines, x);
      if (at.length !== 1 || !near(at[0], chart.up(value))) found.push(`quarter ${first + i} is at ${at}, and ${value} kW at ${chart.up(value)}`);
    }
  });
  const [left, right] = [chart.across(first), chart.across(first + values.length)];
  for (const [x, , to] of lines) if (Math.min(x, to) < left - NEAR || Math.max(x, to) > right + NEAR) found.push(`a stroke from ${x} to ${to}`);
  return found;
}

// The path of the one line of a class; nothing where none is due.
function only(chart, kind, is_due) {
  const groups = chart.all(`g.${kind}`), paths = chart.all(`g.${kind} path`);
  if (groups.length !== (is_due ? 1 : 0) || paths.length !== groups.length) throw Error(`${groups.length} of ${kind}, with ${paths.length} paths`);
  return paths[0];
}

// A stretch of the ruler over the whole plot, with its bracket and its words.
function band(chart, kind, due, words) {
  const boxes = chart.all(`g.${kind} rect`).map((rect) => rect.getBoundingClientRect()), found = [];
  if (boxes.length !== (due ? 1 : 0)) return [`${boxes.length} of ${kind}`];
  if (!due) return [];
  const [left, right] = due.map((quarter) => chart.across(quarter)), {top, bottom} = chart.plot;
  const [box] = boxes, words_due = `${words} ${clock(due[0])} to ${clock(due[1])}`;
  if (!near(box.left, left) || !near(box.right, right) || !near(box.top, top) || !near(box.bottom, bottom))
    found.push(`${kind} is at ${place(box)}, due at ${place({left, right, top, bottom})}`);
  return [...found, ...bracket(chart, words_due, left, right)];
}

// Words over the plot, and what follows them: a bracket from left to right. The words stand over it, or begin or end near it.
function bracket(chart, words, left, right) {
  const text = chart.labelled(words);
  if (!text) return [`no label ${words}`];
  const box = text.getBoundingClientRect(), under = bounds(text.nextElementSibling), found = [];
  if (!near(under.left, left) || !near(under.right, right)) found.push(`the bracket of ${words} is at ${under.left} to ${under.right}`);
  if (box.left > right + 10 || box.right < left - 10) found.push(`${words} stands at ${place(box)}`);
  return found;
}

// The kW axis: each label at the middle of a line across the plot, at the value that it names.
function heights_named(chart) {
  const labels = chart.all('g.axes text').filter((text) => /^\d+$/.test(text.textContent)), found = [];
  const lines = chart.all('g.axes path').map((path) => strokes(path)).filter((all) => all.length === 1).map(([only]) => only);
  const values = labels.map((text) => Number(text.textContent));
  if (values.length < 2 || values[0] !== chart.low || values.at(-1) !== chart.high) found.push(`the axis names ${values}`);
  for (const text of labels) {
    const box = text.getBoundingClientRect(), y = chart.up(Number(text.textContent)), {left, right} = chart.plot;
    const is_line = ([x, from, to, end]) => near(x, left) && near(to, right) && near(from, y) && near(end, y);
    if (!near(middle(box)[1], y, 1.5) || box.right > left) found.push(`${text.textContent} kW is named at ${place(box)}, and stands at ${y}`);
    if (!lines.some(is_line)) found.push(`${text.textContent} kW has no line`);
  }
  const said = chart.low > 0 && !chart.labelled(`the kW axis starts at ${chart.low}, not at 0`);
  return said ? [...found, 'that the axis does not start at 0 is not said'] : found;
}

// The axis of times: every three hours its time, at its tick; and the days, each under its own part.
function times_named(chart) {
  const labels = chart.all('g.axes text').filter((text) => /^\d\d:\d\d$/.test(text.textContent)), found = [];
  const ticks = chart.all('g.axes path').map((path) => strokes(path)).filter((all) => all.length === 1).map(([only]) => only);
  labels.forEach((text, i) => {
    const box = text.getBoundingClientRect(), quarter = chart.from + WINDOW * i, x = chart.across(quarter);
    const is_tick = ([at, from, to]) => near(at, x) && near(to, x) && near(from, chart.plot.bottom);
    if (text.textContent !== clock(quarter) || !near(middle(box)[0], x)) found.push(`${text.textContent} stands at ${place(box)}`);
    if (!ticks.some(is_tick)) found.push(`${text.textContent} has no tick`);
  });
  if (labels.length !== (chart.to - chart.from) / WINDOW + 1) found.push(`${labels.length} times`);
  chart.due.days.forEach((day, part) => {
    const own = chart.all('g.axes text').filter((text) => new RegExp(`\\bday ${day}\\b`).test(text.textContent)).map((text) => text.getBoundingClientRect());
    const [left, right] = part === 0 ? [chart.from, 96] : [96, chart.to];
    const is_under = (box) => box.left >= chart.across(left) && box.right <= chart.across(right);
    if (own.length !== (day < 0 ? 0 : 1) || !own.every(is_under)) found.push(`day ${day} is named at ${own.map(place)}`);
  });
  return found;
}

// How light a colour is once colours are gone, as the browser does it: 0 to 255.
function lightness(colour) {
  const [red, green, blue] = colour.match(/[\d.]+/g).map(Number);
  return 0.2126 * red + 0.7152 * green + 0.0722 * blue;
}

function look_of(chart, element) {
  const {stroke, strokeWidth, strokeDasharray} = chart.style(element);
  return {light: lightness(stroke), wide: parseFloat(strokeWidth), dash: strokeDasharray};
}

const differ = (one, other) => one.dash !== other.dash || Math.abs(one.light - other.light) >= 60 ||
  Math.max(one.wide, other.wide) >= 1.8 * Math.min(one.wide, other.wide);

// The legend names what is drawn and nothing else, and shows it as it is drawn.
function legend(chart) {
  const names = {load: 'load, with gaps', chosen: 'chosen days', baseline: 'baseline over', adjustment: 'adjustment window', event: 'event'}, found = [];
  const styles = (element) => ['stroke', 'strokeWidth', 'strokeDasharray'].map((name) => chart.style(element)[name]).join();
  for (const [kind, words] of Object.entries(names)) {
    const drawn = chart.all(`g.${kind} path, g.${kind} rect`);
    const texts = chart.texts.filter((text) => text.textContent.startsWith(words) && middle(text.getBoundingClientRect())[1] > chart.plot.bottom + 80);
    if (texts.length !== (drawn.length > 0 ? 1 : 0)) found.push(`${texts.length} of ${kind} in the legend`);
    for (const text of texts) {
      const shown = text.previousElementSibling;
      const same = drawn[0] && (shown.tagName === 'rect' ? chart.style(shown).fill === chart.style(drawn[0]).fill : styles(shown) === styles(drawn[0]));
      if (!same) found.push(`${kind} is drawn otherwise than in the legend`);
    }
  }
  return found;
}

// The chart as a picture without colours: how light each of its pixels is.
function picture(chart) {
  const canvas = document.createElement('canvas');
  canvas.width = 1000;
  canvas.height = 680;
  const drawn = canvas.getContext('2d', {willReadFrequently: true});
  drawn.filter = 'grayscale(1)';
  drawn.drawImage(document.getElementById(`picture ${chart.due.name}`), 0, 0);
  const {data} = drawn.getImageData(0, 0, 1000, 680);
  return (x, y) => data[4 * (1000 * Math.floor(y) + Math.floor(x))];
}

// The pixels of a column of the plot that are so light.
function column(chart, light, x, is_so) {
  const found = [];
  for (let y = Math.ceil(chart.plot.top); y < chart.plot.bottom - 2; y++) if (is_so(light(x, y))) found.push(y);
  return found;
}

// In grey, load and baseline are dark where their values are, no other quarter of the load is, and both shadings are seen.
function seen(chart) {
  const light = picture(chart), {start, ruler, numerators, denominator} = chart.due, found = [], dark = (value) => value < DARK;
  const due = (numerators || []).map((numerator) => chart.up(numerator / denominator));
  due.forEach((y, i) => {
    const over = [-2, -1, 0, 1, 2].filter((by) => dark(light(chart.across(start + i) + 2, y + by)));
    if (over.length < 3) found.push(`the baseline is not seen at quarter ${start + i}`);
  });
  for (let quarter = chart.from; quarter < chart.to; quarter++) {
    const x = chart.across(quarter + 0.5), reading = ruler[quarter], y = chart.up(reading), own = due[quarter - start];
    if (reading !== null && ![-1, 0, 1].some((by) => dark(light(x, y + by)))) found.push(`the load is not seen at quarter ${quarter}`);
    const black = column(chart, light, x, dark).filter((at) => !near(at + 0.5, reading === null ? NaN : y, 2.5) && !near(at + 0.5, own, 3.5));
    if (black.length > 0) found.push(`at quarter ${quarter} something is dark at ${black}`);
  }
  for (const [kind, least, most] of [['event', 0.8, 1], ['adjustment', 0.1, 0.7]]) {
    for (const box of chart.all(`g.${kind} rect`).map((rect) => rect.getBoundingClientRect())) {
      const part = column(chart, light, box.left + 2.5, (value) => value < 245 && value > DARK).length / (box.height - 2);
      if (part < least || part > most) found.push(`of ${kind} ${part} is shaded`);
    }
  }
  return found;
}

// Each kind of check: what a chart has against it.
const CHECKS = {
  alone: (chart) => {
    const {width, height} = chart.svg.getBoundingClientRect(), loaded = chart.window.performance.getEntriesByType('resource').map(({name}) => name);
    const names = chart.svg.getAttribute('width') === '1000' && width === 1000 && height === 680 ? [] : [`it is ${width} by ${height}`];
    return [...names, ...loaded.map((name) => `it loads ${name}`)];
  },
  texts: (chart) => {
    const {boxes} = chart, words = (i) => chart.texts[i].textContent;
    return boxes.flatMap((one, i) => boxes.slice(0, i).flatMap((other, j) => meet(one, other) ? [`${words(i)} meets ${words(j)}`] : []));
  },
  page: (chart) => {
    const leaves = ({left, right, top, bottom, width}) => width === 0 || left < 0 || top < 0 || right > 1000 || bottom > 680;
    return chart.texts.flatMap((text, i) => leaves(chart.boxes[i]) ? [`${text.textContent} is at ${place(chart.boxes[i])}`] : []);
  },
  lines: (chart) => {
    const boxes = chart.all('rect').slice(1).map((rect) => [rect, rect.getBoundingClientRect()]);
    const stroked = chart.all('path').flatMap((path) => {
      const half = parseFloat(chart.style(path).strokeWidth) / 2;
      const across = (x, to) => ({left: Math.min(x, to) - half, right: Math.max(x, to) + half});
      const down = (y, to) => ({top: Math.min(y, to) - half, bottom: Math.max(y, to) + half});
      return strokes(path).map(([x, y, toX, toY]) => [path, {...across(x, toX), ...down(y, toY)}]);
    });
    const name = (element) => element.closest('g')?.getAttribute('class') || element.outerHTML;
    const all = [...boxes, ...stroked], under = (i) => all.filter(([, box]) => meet(chart.boxes[i], box));
    return chart.texts.flatMap((text, i) => under(i).map(([element]) => `${text.textContent} stands over ${name(element)}`));
  },
  baseline: (chart) => {
    const {start, numerators, denominator} = chart.due, path = only(chart, 'baseline', numerators);
    if (!numerators) return [];
    const values = numerators.map((numerator) => numerator / denominator), each = path.getTotalLength() / values.length;
    const off = values.map((kw, i) => {
      const {x, y} = path.getPointAtLength(each * (i + 0.5)), at = onScreen(path, x, y);
      const dashed = path.isPointInStroke(new DOMPoint(x - each / 2 + 2, y));
      return near(at.x, chart.across(start + i + 0.5)) && near(at.y, chart.up(kw)) && dashed ? '' : `quarter ${start + i} is at ${at.x} ${at.y}`;
    });
    return [...line(chart, path, start, values), ...off.filter((words) => words !== '')];
  },
  load: (chart) => line(chart, only(chart, 'load', true), chart.from, chart.due.ruler.slice(chart.from, chart.to)),
  chosen: (chart) => {
    const paths = chart.all('g.chosen path'), {chosen} = chart.due;
    if (chosen.length !== paths.length) return [`${paths.length} chosen days`];
    return paths.flatMap((path, i) => line(chart, path, chart.from, chosen[i].slice(chart.from, chart.to)));
  },
  bands: (chart) => {
    const {start, end, adjustment, notice} = chart.due, lines = chart.all('path.notice').map(bounds);
    const found = [...band(chart, 'event', start === null ? null : [start, end], 'event'), ...band(chart, 'adjustment', adjustment, 'adjustment window')];
    if (notice === null || notice < chart.from) return lines.length === 0 ? found : [...found, 'a line of the notice'];
    const x = chart.across(notice);
    if (lines.length !== 1 || !near(lines[0].left, x) || !near(lines[0].right, x)) found.push(`the notice is at ${lines.map(place)}`);
    return [...found, ...bracket(chart, `notice ${clock(notice)}`, x, x)];
  },
  axes: (chart) => [...heights_named(chart), ...times_named(chart)],
  legend,
  grey: (chart) => {
    const looks = ['load', 'chosen', 'baseline'].flatMap((kind) => chart.all(`g.${kind} path`).slice(0, 1).map((path) => [kind, look_of(chart, path)]));
    return looks.flatMap(([one, look], i) => looks.slice(0, i).filter(([, other]) => !differ(look, other)).map(([other]) => `${one} looks like ${other}`));
  },
  seen,
};

function checked(due) {
  let chart;
  try {
    chart = new Chart(due);
  } catch (error) {
    return {alone: [`it does not open: ${error.message}`]};
  }
  for (const [kind, check] of Object.entries(CHECKS)) {
    try {
      chart.found[kind] = check(chart);
    } catch (error) {
      chart.found[kind] = [error.message];
    }
  }
  return chart.found;
}

window.onload = () => {
  const found = document.createElement('pre');
  found.textContent = JSON.stringify(charts.map(checked));
  document.body.replaceChildren(found);
};
