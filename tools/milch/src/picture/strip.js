// The strip: only the columns in sight are there, and the lines between their tasks.
const strip = document.getElementById('strip');
const canvas = document.getElementById('canvas');
const lines = document.getElementById('lines');
const wide = { width: 157, narrow: false };
const slim = { width: 60, narrow: true };
const spare = 2;
const beside = 2;
// Browsers bound the width of a page: of a longer recording the strip holds so many columns, from `base`.
const span = 50000;
const view = { size: wide, whole: false, chosen: 0, base: 0, boxes: new Map() };
const waiting = new Set();

function inSight() {
  const width = view.size.width;
  const first = view.base + Math.floor(strip.scrollLeft / width);
  const last = view.base + Math.ceil((strip.scrollLeft + strip.clientWidth) / width) - 1;
  return [Math.max(0, first), Math.min(view.base + span - 1, count - 1, last)];
}

// Moves the part that the strip holds where a record is out of it, or near its end.
function rebase(at) {
  const near = span / 10;
  const low = view.base > 0 && at < view.base + near;
  const high = view.base + span < count && at >= view.base + span - near;
  if (!low && !high) return;
  const old = view.base;
  view.base = Math.max(0, Math.min(count - span, at - span / 2));
  const left = strip.scrollLeft + (old - view.base) * view.size.width;
  redraw();
  strip.scrollLeft = left;
}

function markChosen(box, at) {
  const is = at === view.chosen;
  box.classList.toggle('chosen', is);
  box.setAttribute('aria-selected', String(is));
}

function drawColumns() {
  const [first, last] = inSight();
  const from = Math.max(view.base, first - spare);
  const to = Math.min(view.base + span - 1, count - 1, last + spare);
  for (const [at, box] of view.boxes) {
    if (at < from || at > to) {
      box.remove();
      view.boxes.delete(at);
    }
  }
  for (let at = from; at <= to; at += 1) {
    if (!view.boxes.has(at)) {
      const box = columnBox(at, (at - view.base) * view.size.width, view.whole);
      view.boxes.set(at, box);
      canvas.append(box);
    }
    markChosen(view.boxes.get(at), at);
  }
  const chosen = view.boxes.get(view.chosen);
  if (chosen) strip.setAttribute('aria-activedescendant', chosen.id);
  else strip.removeAttribute('aria-activedescendant');
  drawLines(from, to);
}

// Where the heads of a column's tasks are, by task.
function heads(box) {
  const found = new Map();
  for (const task of box.querySelectorAll('.task')) {
    const head = task.firstElementChild;
    found.set(task.dataset.task, { y: task.offsetTop + head.offsetTop + head.offsetHeight / 2, task });
  }
  return found;
}

function line(start, y, end, other, task) {
  const path = document.createElementNS(lines.namespaceURI, 'path');
  const middle = (start + end) / 2;
  path.setAttribute('d', `M${start} ${y}C${middle} ${y} ${middle} ${other} ${end} ${other}`);
  path.style.setProperty('--hue', task.style.getPropertyValue('--hue'));
  if (task.classList.contains('came')) path.setAttribute('class', 'came');
  return path;
}

function drawLines(from, to) {
  let height = 0;
  let left = null;
  const paths = [];
  for (let at = from; at <= to; at += 1) {
    const box = view.boxes.get(at);
    const right = heads(box);
    height = Math.max(height, box.lastElementChild.offsetTop + box.lastElementChild.offsetHeight);
    const end = (at - from) * view.size.width;
    const start = end - view.size.width + box.offsetWidth;
    for (const [id, { y, task }] of right) {
      const before = left && left.get(id);
      if (before) paths.push(line(start, before.y, end, y, task));
    }
    left = right;
  }
  canvas.style.height = height + 8 + 'px';
  lines.replaceChildren(...paths);
  lines.style.left = (from - view.base) * view.size.width + 'px';
  lines.setAttribute('width', (to - from + 1) * view.size.width);
  lines.setAttribute('height', height);
}

function redraw() {
  view.boxes.forEach((box) => box.remove());
  view.boxes.clear();
  canvas.style.width = Math.min(span, count) * view.size.width + 'px';
  strip.classList.toggle('narrow', view.size.narrow);
  drawColumns();
}

// What is printed: the columns around the chosen record, with their whole stacks.
function drawPrinted() {
  const boxes = [];
  const last = Math.min(count - 1, view.chosen + beside);
  for (let at = Math.max(0, view.chosen - beside); at <= last; at += 1) {
    const box = columnBox(at, 0, true);
    box.removeAttribute('id');
    markChosen(box, at);
    boxes.push(box);
  }
  document.getElementById('printed').replaceChildren(...boxes);
}

// Draws with the next frame, and once in it.
function soon(draw) {
  if (waiting.has(draw)) return;
  waiting.add(draw);
  requestAnimationFrame(() => {
    waiting.delete(draw);
    draw();
  });
}

// Scrolls as little as shows the chosen column and its neighbours.
function bringIntoSight(at) {
  rebase(at);
  const width = view.size.width;
  const margin = strip.clientWidth > 4 * width ? width : 0;
  const left = (at - view.base) * width - margin;
  const right = left + width + 2 * margin;
  const far = left > strip.scrollLeft + 2 * strip.clientWidth || right < strip.scrollLeft - strip.clientWidth;
  if (far) strip.scrollLeft = left - strip.clientWidth / 2 + width;
  else if (left < strip.scrollLeft) strip.scrollLeft = left;
  else if (right > strip.scrollLeft + strip.clientWidth) strip.scrollLeft = right - strip.clientWidth;
}
