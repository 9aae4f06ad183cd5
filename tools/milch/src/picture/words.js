// A moment in words, for the panel, for the ear and as text.
function ordinal(number) {
  const ends = ['th', 'st', 'nd', 'rd'];
  const tens = number % 100 > 10 && number % 100 < 14;
  return number + ((!tens && ends[number % 10]) || 'th');
}

function names(screens) {
  return screens.map(screenName).join(', ');
}

function cameWords(m) {
  if (m.came === 0) return '';
  const front = m.tasks[0];
  return m.came === 1
    ? 'New task in front: ' + taskName(front)
    : 'Came to the front: task ' + taskName(front) + ', which was ' + ordinal(m.came);
}

function closedWords(m) {
  return m.closed ? 'Closed ' + m.closed + ': ' + names(m.gone) : '';
}

// What the record did, a line each.
function changes(m) {
  const lines = [cameWords(m)];
  if (m.opened && m.tasks.length) lines.push('Opened: ' + screenName(m.tasks[0].screens[0]));
  lines.push(closedWords(m));
  if (m.mark) lines.push('No history: ' + screenName(m.tasks[0].screens[0]) + ' closes with the next start from it');
  return lines.filter(Boolean);
}

function taskWords(task, at, main) {
  return taskName(task) + (at + 1 === main ? ', main task' : '') + ': ' + names(task.screens);
}

function spoken(m) {
  const stand = m.tasks.map((task, at) => taskWords(task, at, m.main));
  const parts = ['Record ' + m.number + ' of ' + lastNumber, m.call];
  if (m.refusal) parts.push('Refused, ' + m.refusal, 'Nothing changed');
  if (m.reason) parts.push(m.reason);
  parts.push(...changes(m));
  parts.push(stand.length ? stand.length + (stand.length === 1 ? ' task' : ' tasks') + ', front first' : 'No task stands');
  return parts.concat(stand).join('. ') + '.';
}
