'use strict';
// Runs the script of pages over the stand-in for a document, and looks at what an agent would see there.
//
//     node tools/page/test.js MILCH FOLDER
//
// MILCH is the program, and FOLDER one for temporary files.
const assert = require('node:assert/strict');
const { execFileSync } = require('node:child_process');
const fs = require('node:fs');
const path = require('node:path');
const { open } = require('./document.js');

const [milch, folder] = process.argv.slice(2);
const root = path.join(__dirname, '../..');
const names = ['--names', path.join(root, 'prices.names')];
const prices = path.join(root, 'prices.recording');

function run(...given) {
  return execFileSync(milch, given, { encoding: 'utf8' });
}

function page(file, ...more) {
  const out = path.join(folder, 'page.html');
  run('picture', file, '--out', out, ...more);
  return open(fs.readFileSync(out, 'utf8'));
}

// A recording of two screens: 0, the main one, and 1, single-task of an affinity of its own.
function recording(name, records) {
  const rows = records.map(([kind, screen, word]) => [kind, screen, word >>> 24, (word >>> 16) & 255, (word >>> 8) & 255, word & 255]);
  const file = path.join(folder, name);
  fs.writeFileSync(file, Buffer.from([2, 0, 0, 1, 2, 2, ...rows.flat()]));
  return file;
}

function chosen(shown) {
  return Number(shown.text('told').match(/^Record (\d+)/)[1]);
}

function keysWorkAtOnce() {
  const shown = page(prices, ...names);
  const { document, ids } = shown;
  assert.equal(document.activeElement, ids.strip);
  assert.equal(chosen(shown), 1);
  for (const [target, key, at] of [[ids.strip, 'ArrowRight', 2], [document.body, 'ArrowRight', 3], [ids.next, 'End', 9], [ids.strip, 'ArrowLeft', 8]]) {
    assert.ok(shown.happens(target, 'keydown', { key }));
    assert.equal(chosen(shown), at);
  }
  for (const target of [ids.number, ids.slider, ids.stacks]) assert.ok(!shown.happens(target, 'keydown', { key: 'ArrowLeft' }));
  assert.ok(!shown.happens(ids.strip, 'keydown', { key: 'ArrowLeft', altKey: true }));
  assert.equal(chosen(shown), 8);
}

function clicksGoThere() {
  const shown = page(prices, ...names);
  for (const [offsetX, at] of [[600, 5], [0, 1], [1199, 9], [8 + (1184 / 8) * 3, 4]]) {
    shown.happens(shown.ids.heights, 'click', { offsetX });
    assert.equal(chosen(shown), at);
  }
}

// The columns around the chosen record, it among them, and none twice on the page.
function whatIsPrinted() {
  const shown = page(prices, ...names);
  shown.happens(shown.ids.heights, 'click', { offsetX: 600 });
  const columns = shown.ids.printed.elements;
  assert.deepEqual(columns.map((column) => Number(column.querySelectorAll('.record')[0].textContent)), [3, 4, 5, 6, 7]);
  assert.deepEqual(columns.map((column) => column.classList.contains('chosen')), [false, false, true, false, false]);
  assert.ok(columns.every((column) => column.id === undefined));
}

// The text of every record is that of `at`.
function textIsThatOfAt(file, count, ...more) {
  const shown = page(file, ...more);
  for (let at = 1; at <= count; at += 1) {
    assert.equal(shown.text('stacks'), run('at', file, String(at), ...more));
    shown.happens(shown.ids.strip, 'keydown', { key: 'ArrowRight' });
  }
  return shown;
}

// A marked screen that starts itself closes with its task: nothing says that this comes to the front.
function markedCallers() {
  const file = recording('marked', [[1, 0, 0], [2, 1, 0x40000000], [2, 1, 0]]);
  const shown = textIsThatOfAt(file, 3);
  assert.match(shown.text('told'), /holds the caller alone, which leaves no history: it closes/);
  assert.doesNotMatch(shown.text('told'), /it comes to the front/);
  assert.match(shown.text('told'), /Came to the front: task screen 0, which was 2nd/);
}

function parts() {
  const shown = page(prices, ...names, '--from', '3', '--to', '5');
  assert.equal(chosen(shown), 3);
  assert.match(shown.text('summary'), /^3 records, 3 to 5 of more · /);
  assert.equal(shown.text('last'), 'of 3 to 5');
  shown.ids.number.value = '5';
  shown.happens(shown.ids.number, 'change');
  assert.equal(shown.text('stacks'), run('at', prices, '5', ...names));
  shown.ids.number.value = '6';
  shown.happens(shown.ids.number, 'change');
  assert.equal(chosen(shown), 5);
}

// Few refused calls have a sign each; many a bar for their share, which is longer where more were refused.
function refusedCalls() {
  const few = page(recording('few', [[1, 0, 0], [1, 0, 0], [5, 0, 0], [1, 0, 0]]));
  assert.equal(few.ids.heights.drawn.filter(({ call }) => call === 'fill').length, 2);
  const kinds = (at) => (at < 1500 ? 5 : at < 2250 && at % 2 ? 5 : 1);
  const many = page(recording('many', Array.from({ length: 3000 }, (_, at) => [at ? kinds(at) : 1, 0, 0])));
  const bars = many.ids.heights.drawn.filter(({ call, numbers }) => call === 'fillRect' && numbers[1] === 0 && numbers[2] > 2);
  assert.ok(bars.every(({ numbers: [x] }) => x > 590));
  const tall = (from, to) => bars.filter(({ numbers: [x] }) => x >= from && x < to).map(({ numbers }) => numbers[3]);
  assert.ok(Math.max(...tall(620, 860)) < 6 && Math.min(...tall(620, 860)) > 3);
  assert.ok(Math.min(...tall(920, 1180)) === 8);
}

keysWorkAtOnce();
clicksGoThere();
whatIsPrinted();
textIsThatOfAt(prices, 9, ...names);
textIsThatOfAt(path.join(root, 'sample.recording'), 8);
markedCallers();
parts();
refusedCalls();
console.log('the page: keys, clicks, what is printed, the text of at, marked callers, parts and refused calls');
