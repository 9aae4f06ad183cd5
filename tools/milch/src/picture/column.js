// One column: the record, and the tasks that stand after it, front first.
const shownInFront = 8;
const shownBehind = 3;

function make(kind, style, ...inside) {
  const made = document.createElement(kind);
  if (style) made.className = style;
  made.append(...inside);
  return made;
}

function named(style, screen) {
  const name = make('bdi', 'name', screenName(screen));
  const box = make('div', style, make('span', 'digits', String(screen)), name);
  box.classList.toggle('unnamed', !givenName(screen));
  return box;
}

// The call, which may break behind a flag, and inside a long one.
function callBox(call) {
  const tokens = call.match(/[^| ]*[| ]?/g);
  const parts = tokens.flatMap((token) => (token.length > 15 ? token.match(/[^_]*_?/g) : [token])).filter(Boolean);
  return make('div', 'call', make('bdi', '', ...parts.flatMap((part) => [part, make('wbr')])));
}

function screenBox(screen, m, isFront) {
  const box = named('screen', screen);
  if (isFront) {
    box.classList.add('front');
    if (m.opened) box.append(make('span', 'sign opened', '+'));
    if (m.mark) box.append(make('span', 'sign mark', 'no history'));
    box.classList.toggle('marked', m.mark);
  }
  return box;
}

function taskBox(task, at, m, whole) {
  const head = named('task-head', task.root);
  if (order(task)) head.append(make('span', 'task-id', order(task)));
  if (at + 1 === m.main) head.append(make('span', 'sign main', 'main'));
  const box = make('div', 'task pattern' + pattern(task.root), head);
  if (at === 0) box.classList.add('in-front');
  if (at === 0 && m.came) box.classList.add('came');
  box.style.setProperty('--hue', hue(task.root));
  box.dataset.task = task.id;
  const room = whole ? task.screens.length : at === 0 ? shownInFront : shownBehind;
  const shown = task.screens.length > room ? room - 1 : task.screens.length;
  task.screens.slice(0, shown).forEach((screen, depth) => box.append(screenBox(screen, m, at + depth === 0)));
  if (shown < task.screens.length) box.append(make('div', 'more', '+ ' + (task.screens.length - shown) + ' below'));
  return box;
}

function eventLine(m) {
  if (m.refusal) return make('div', 'event refused', m.refusal);
  if (m.came === 1) return make('div', 'event', make('b', '', '+'), ' new task');
  if (m.came > 1) return make('div', 'event', make('b', '', '↑'), ' to front, was ' + ordinal(m.came));
  return make('div', 'event');
}

function closedBox(m) {
  const box = make('div', 'gone', make('div', 'gone-head', '✕ ', make('span', 'gone-word', 'closed '), String(m.closed)));
  m.gone.slice(0, shownInFront).forEach((screen) => box.append(named('screen', screen)));
  if (m.gone.length > shownInFront) box.append(make('div', 'more', '+ ' + (m.gone.length - shownInFront) + ' more'));
  return box;
}

function columnBox(at, left, whole) {
  const m = moment(at);
  const number = make('div', 'record', String(m.number));
  if (m.refusal) number.append(make('span', 'sign refused', '⊘ refused'));
  const head = make('div', 'head', number, callBox(m.call), eventLine(m));
  const box = make('div', m.refusal ? 'column refused' : 'column', head);
  box.id = 'record-' + at;
  box.dataset.at = at;
  box.setAttribute('role', 'option');
  box.setAttribute('aria-posinset', at + 1);
  box.setAttribute('aria-setsize', count);
  box.setAttribute('aria-label', spoken(m));
  box.style.left = left + 'px';
  m.tasks.forEach((task, depth) => box.append(taskBox(task, depth, m, whole)));
  if (!m.tasks.length) box.append(make('div', 'empty', 'no task'));
  if (m.closed) box.append(closedBox(m));
  return box;
}
