// The whole recording at a glance: how many screens stand, by task, and where calls were refused.
const heights = document.getElementById('heights');
const dark = matchMedia('(prefers-color-scheme: dark)');
const inset = 8;
// A sign of a refused call is so wide; where there is no room for each, the share of refused calls is drawn, in parts so wide.
const signWidth = 9;
const partWidth = 3;
const refusedHeight = 8;

function breadth() {
  return heights.clientWidth - 2 * inset;
}

function across(at) {
  return inset + (count > 1 ? (at / (count - 1)) * breadth() : breadth() / 2);
}

// The record at a place across the overview, or the nearest.
function nearest(x) {
  return Math.max(0, Math.min(count - 1, Math.round(((x - inset) / breadth()) * (count - 1))));
}

function standing(at) {
  const stack = book.moments[at][5];
  return stack ? book.stacks[stack - 1].map((number) => book.tasks[number - 1]) : [];
}

function drawBar(pen, at, width, unit, floor) {
  let y = floor;
  const tasks = standing(at);
  for (let depth = tasks.length - 1; depth >= 0; depth -= 1) {
    const [, root, screens] = tasks[depth];
    const tall = screens.length * unit;
    pen.fillStyle = `hsl(${hue(root)} 55% ${dark.matches ? 60 : 48}%)`;
    pen.fillRect(across(at) - width / 2, y - tall, width, Math.max(1, tall - 0.5));
    y -= tall;
  }
}

function drawRefusedSign(pen, at) {
  const x = across(at);
  pen.beginPath();
  pen.moveTo(x - 4, 0);
  pen.lineTo(x + 4, 0);
  pen.lineTo(x, 7);
  pen.fill();
}

// The share of refused calls in each of so many parts of the recording.
function refusedShares(parts) {
  const refused = new Array(parts).fill(0);
  const all = new Array(parts).fill(0);
  for (let at = 0; at < count; at += 1) {
    const part = Math.floor((at / count) * parts);
    all[part] += 1;
    if (isRefused(at)) refused[part] += 1;
  }
  return all.map((some, part) => (some ? refused[part] / some : 0));
}

// A bar hangs from above, longer and stronger where more calls were refused.
function drawRefusedShares(pen) {
  const parts = Math.max(1, Math.floor(breadth() / partWidth));
  const width = breadth() / parts;
  refusedShares(parts).forEach((share, part) => {
    pen.globalAlpha = 0.4 + 0.6 * share;
    if (share) pen.fillRect(inset + part * width, 0, width, 1 + (refusedHeight - 1) * share);
  });
  pen.globalAlpha = 1;
}

function drawRefused(pen) {
  pen.fillStyle = dark.matches ? '#ff8f84' : '#b3140c';
  if (count * signWidth > breadth()) return drawRefusedShares(pen);
  for (let at = 0; at < count; at += 1) if (isRefused(at)) drawRefusedSign(pen, at);
  return undefined;
}

function drawOverview() {
  const scale = devicePixelRatio || 1;
  const width = heights.clientWidth;
  const height = heights.clientHeight;
  heights.width = width * scale;
  heights.height = height * scale;
  const pen = heights.getContext('2d');
  pen.scale(scale, scale);
  const most = book.moments.reduce((all, row, at) => Math.max(all, total(at)), 1);
  const unit = Math.min(5, (height - refusedHeight - 1) / most);
  const stride = Math.max(1, Math.floor(count / width));
  const bar = Math.min(14, Math.max(1, (width / count) * 0.8));
  for (let at = 0; at < count; at += stride) drawBar(pen, at, bar, unit, height);
  drawRefused(pen);
}

const totals = book.stacks.map((stack) => stack.reduce((all, number) => all + book.tasks[number - 1][2].length, 0));

function total(at) {
  const stack = book.moments[at][5];
  return stack ? totals[stack - 1] : 0;
}

// The part of the recording that the strip shows.
function showWindow() {
  const [first, last] = inSight();
  const box = document.getElementById('window');
  box.style.left = across(first) - 3 + 'px';
  box.style.width = across(last) - across(first) + 6 + 'px';
}
