// The page: one moment is chosen, by column, slider, number or address.
const slider = document.getElementById('slider');
const numberBox = document.getElementById('number');
const tip = document.getElementById('tip');
const timers = {};

function find(id) {
  return document.getElementById(id);
}

function later(name, wait, act) {
  clearTimeout(timers[name]);
  timers[name] = setTimeout(act, wait);
}

function told(m) {
  const parts = [make('p', 'call', make('bdi', '', m.call))];
  if (m.refusal) parts.push(make('p', 'refusal', make('b', '', '⊘ Refused'), ', ' + m.refusal + '. Nothing changed.'));
  if (m.reason) parts.push(make('p', 'reason', m.reason));
  const lines = changes(m).map((line) => make('li', '', make('bdi', '', line)));
  if (lines.length) parts.push(make('ul', '', ...lines));
  return parts;
}

function showMoment(m) {
  find('told').replaceChildren(make('h2', '', 'Record ' + m.number), ...told(m));
  find('stacks').replaceChildren(...stackText(m));
  slider.value = m.at;
  slider.setAttribute('aria-valuetext', 'Record ' + m.number + ': ' + m.call);
  numberBox.value = m.number;
  later('live', 200, () => { find('live').textContent = spoken(m); });
  later('address', 300, () => history.replaceState(null, '', '#' + m.number));
  later('printed', 300, drawPrinted);
}

function choose(at) {
  if (!count) return;
  view.chosen = Math.max(0, Math.min(count - 1, at));
  hideTip();
  bringIntoSight(view.chosen);
  showMoment(moment(view.chosen));
  soon(drawAll);
}

function drawAll() {
  rebase(inSight()[0]);
  drawColumns();
  showWindow();
}

// Keys move from record to record, but in what needs them itself.
function onKey(event) {
  if (event.target instanceof Element && event.target.closest('#number, #slider, #stacks')) return;
  const [first, last] = inSight();
  const page = Math.max(1, last - first - 1);
  const steps = { ArrowLeft: -1, ArrowRight: 1, PageUp: -page, PageDown: page, Home: -count, End: count };
  if (!(event.key in steps) || event.ctrlKey || event.altKey || event.metaKey) return;
  event.preventDefault();
  choose(view.chosen + steps[event.key]);
}

function refusedFrom(step) {
  let at = view.chosen + step;
  while (at >= 0 && at < count && !isRefused(at)) at += step;
  if (at >= 0 && at < count) choose(at);
}

function toNumber() {
  const at = place(Number(numberBox.value));
  numberBox.setCustomValidity(at < 0 ? 'There is no such record' : '');
  numberBox.reportValidity();
  if (at >= 0) choose(at);
}

function fromAddress() {
  const at = place(Number(location.hash.slice(1)));
  choose(Math.max(0, at));
}

function columnAt(target) {
  return target instanceof Element ? target.closest('.column') : null;
}

function showTip(event) {
  const box = columnAt(event.target);
  if (!box) return hideTip();
  const m = moment(Number(box.dataset.at));
  tip.replaceChildren(make('b', '', 'Record ' + m.number), ...told(m));
  tip.hidden = false;
  const left = Math.min(event.clientX + 14, innerWidth - tip.offsetWidth - 8);
  const below = event.clientY + 18;
  const top = below + tip.offsetHeight > innerHeight ? event.clientY - tip.offsetHeight - 12 : below;
  tip.style.left = Math.max(8, left) + 'px';
  tip.style.top = Math.max(8, top) + 'px';
}

function hideTip() {
  tip.hidden = true;
}

function resize(size) {
  view.size = size;
  redraw();
  choose(view.chosen);
}

function listen() {
  addEventListener('keydown', onKey);
  strip.addEventListener('scroll', () => soon(drawAll));
  strip.addEventListener('click', (event) => {
    const box = columnAt(event.target);
    if (box) choose(Number(box.dataset.at));
  });
  strip.addEventListener('mousemove', showTip);
  strip.addEventListener('mouseleave', hideTip);
  heights.addEventListener('click', (event) => choose(nearest(event.offsetX)));
  slider.addEventListener('input', () => choose(Number(slider.value)));
  numberBox.addEventListener('change', toNumber);
  find('previous').addEventListener('click', () => choose(view.chosen - 1));
  find('next').addEventListener('click', () => choose(view.chosen + 1));
  find('refused-before').addEventListener('click', () => refusedFrom(-1));
  find('refused-after').addEventListener('click', () => refusedFrom(1));
  find('narrow').addEventListener('change', (event) => resize(event.target.checked ? slim : wide));
  find('whole').addEventListener('change', (event) => {
    view.whole = event.target.checked;
    redraw();
  });
  addEventListener('keydown', (event) => event.key === 'Escape' && hideTip());
  addEventListener('hashchange', fromAddress);
  addEventListener('beforeprint', drawPrinted);
  addEventListener('resize', () => {
    bringIntoSight(view.chosen);
    soon(drawAll);
    soon(drawOverview);
  });
  dark.addEventListener('change', drawOverview);
}

function summary() {
  const refused = book.moments.filter((row) => row[2]).length;
  const most = book.stacks.reduce((all, stack) => Math.max(all, stack.length), 0);
  const records = count === 1 ? '1 record' : count + ' records';
  const part = book.part ? `, ${firstNumber} to ${lastNumber} of more` : '';
  return `${records}${part} · ${refused} refused · ${book.screens.length} screens · at most ${most} ${most === 1 ? 'task' : 'tasks'} at once`;
}

function begin() {
  find('summary').textContent = summary();
  if (!count) {
    canvas.append(make('p', 'notice', 'The recording has no records.'));
    find('time').hidden = true;
    find('moment').hidden = true;
    return;
  }
  slider.max = count - 1;
  numberBox.min = firstNumber;
  numberBox.max = lastNumber;
  find('last').textContent = (book.part ? 'of ' + firstNumber + ' to ' : 'of ') + lastNumber;
  redraw();
  drawOverview();
  fromAddress();
  drawAll();
  listen();
  strip.focus({ preventScroll: true });
  document.documentElement.dataset.ready = Math.round(performance.now());
}

begin();
