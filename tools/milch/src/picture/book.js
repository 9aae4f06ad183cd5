// The recording: what stands after each record.
const book = JSON.parse(document.getElementById('book').textContent);
const count = book.moments.length;

function word(number) {
  return number ? book.words[number - 1] : '';
}

function task(number) {
  const [id, root, screens] = book.tasks[number - 1];
  return { id, root, screens };
}

function moment(at) {
  const [number, call, refusal, reason, closed, stack, main, edition, mark, came, opened, gone] = book.moments[at];
  return {
    at, number, closed, main, edition, came,
    call: word(call),
    refusal: word(refusal),
    reason: word(reason),
    tasks: stack ? book.stacks[stack - 1].map(task) : [],
    mark: mark === 1,
    opened: opened === 1,
    gone: gone ? book.gone[gone - 1] : [],
  };
}

function isRefused(at) {
  return book.moments[at][2] !== 0;
}

const firstNumber = count ? book.moments[0][0] : 0;
const lastNumber = count ? book.moments[count - 1][0] : 0;

// The place of a record's number among the moments, or -1.
function place(number) {
  const at = number - firstNumber;
  return Number.isInteger(at) && at >= 0 && at < count ? at : -1;
}

function givenName(screen) {
  const row = book.screens[screen];
  return row ? row[0] : '';
}

function screenName(screen) {
  return givenName(screen) || 'screen ' + screen;
}

function screenMode(screen) {
  const row = book.screens[screen];
  return row ? row[1] : 'unknown';
}

function screenAffinity(screen) {
  const row = book.screens[screen];
  return row ? row[2] : 0;
}

// Roots take colours and patterns in the order in which they first stand.
const hues = [212, 28, 152, 282, 186, 326, 52, 245];
const patterns = 5;
const ranks = new Map();
const orders = new Map();
const tasksOf = new Map();
for (const [id, root] of book.tasks) {
  if (!ranks.has(root)) ranks.set(root, ranks.size);
  if (!orders.has(id)) {
    tasksOf.set(root, (tasksOf.get(root) || 0) + 1);
    orders.set(id, tasksOf.get(root));
  }
}

// A root's later tasks have their number behind its name.
function order(task) {
  const nth = orders.get(task.id);
  return nth > 1 ? '(' + nth + ')' : '';
}

function taskName(task) {
  return (screenName(task.root) + ' ' + order(task)).trim();
}

function hue(root) {
  return hues[(ranks.get(root) || 0) % hues.length];
}

function pattern(root) {
  return (ranks.get(root) || 0) % patterns;
}
