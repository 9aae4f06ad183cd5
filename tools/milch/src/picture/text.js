// The stacks of a moment as text, in the manner of dumpsys activity activities and laid out as `milch at` does.
function stackText(m) {
  const parts = ['RECORD ' + m.number + ': ', isolated(m.call), '\n'];
  if (m.refusal || m.reason) parts.push('  ' + (m.refusal || m.reason) + '\n');
  if (m.closed) parts.push('  closed ' + m.closed + ': ', ...listed(m.gone), '\n');
  parts.push('STACKS: tasks=' + m.tasks.length + ' edition=' + m.edition + ' mark=' + (m.mark ? 'no-history' : 'none') + '\n');
  m.tasks.forEach((task, at) => parts.push(...taskText(task, at + 1, m)));
  return parts;
}

function taskText(task, place, m) {
  const size = task.screens.length;
  const affinity = screenAffinity(task.root) || 'none';
  const main = place === m.main ? 'yes' : 'no';
  const parts = ['  Task #' + place + ': root=', shortName(task.root)];
  parts.push(' affinity=' + affinity + ' main=' + main + ' screens=' + size + '\n');
  task.screens.forEach((screen, depth) => {
    parts.push('    Hist #' + (size - 1 - depth) + ': ', shortName(screen), ' mode=' + screenMode(screen) + '\n');
  });
  return parts;
}

// Screens as `milch show` lists them.
function listed(screens) {
  return screens.flatMap((screen, at) => (at ? [',', shortName(screen)] : [shortName(screen)]));
}

function shortName(screen) {
  return isolated(givenName(screen) || String(screen));
}

// A stranger's text keeps its direction of writing to itself.
function isolated(text) {
  return make('bdi', '', text);
}
