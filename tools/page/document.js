'use strict';
// A stand-in for a browser's document: enough of it to run the script of a page without one. It lays nothing out: each element
// is as wide and as high as is said here.
const vm = require('node:vm');

class Element {
  constructor(id) {
    Object.assign(this, { id, className: '', children: [], attributes: {}, dataset: {}, value: '', listeners: {} });
    Object.assign(this, { offsetTop: 0, offsetHeight: 20, offsetWidth: 139, clientWidth: 1200, clientHeight: 40, scrollLeft: 0 });
    const set = {};
    this.style = { setProperty: (name, value) => { set[name] = value; }, getPropertyValue: (name) => set[name] || '' };
    this.classList = {
      add: (name) => this.classList.toggle(name, true),
      contains: (name) => this.className.split(' ').includes(name),
      toggle: (name, on) => {
        const others = this.className.split(' ').filter((known) => known && known !== name);
        this.className = others.concat(on ? [name] : []).join(' ');
      },
    };
  }
  append(...all) {
    for (const child of all) if (child instanceof Element) child.parent = this;
    this.children.push(...all);
  }
  replaceChildren(...all) {
    this.children = [];
    this.append(...all);
  }
  remove() { this.parent.children = this.parent.children.filter((child) => child !== this); }
  setAttribute(name, value) { this.attributes[name] = String(value); }
  removeAttribute(name) {
    if (name === 'id') this.id = undefined;
    delete this.attributes[name];
  }
  get elements() { return this.children.filter((child) => child instanceof Element); }
  get firstElementChild() { return this.elements[0]; }
  get lastElementChild() { return this.elements[this.elements.length - 1]; }
  get textContent() { return this.children.map((child) => (child instanceof Element ? child.textContent : String(child))).join(''); }
  set textContent(text) { this.children = [text]; }
  querySelectorAll(selector) {
    const below = this.elements.flatMap((child) => [child, ...child.querySelectorAll(selector)]);
    return below.filter((child) => child.matches(selector));
  }
  // One id or one class, or several of them with commas between.
  matches(selector) {
    const is = (one) => (one[0] === '#' ? this.id === one.slice(1) : this.classList.contains(one.slice(1)));
    return selector.split(', ').some(is);
  }
  closest(selector) {
    if (this.matches(selector)) return this;
    return this.parent ? this.parent.closest(selector) : null;
  }
  addEventListener(name, act) { (this.listeners[name] ||= []).push(act); }
  setCustomValidity() {}
  reportValidity() {}
  // What is drawn is kept: the call, its numbers, and how strong the colour is.
  getContext() {
    const drawn = (this.drawn = []);
    const pen = { globalAlpha: 1 };
    for (const call of ['scale', 'beginPath', 'moveTo', 'lineTo', 'fill', 'fillRect']) {
      pen[call] = (...numbers) => drawn.push({ call, numbers, alpha: pen.globalAlpha });
    }
    return pen;
  }
}

// Opens a page: its script is run, and what waits for a frame or for time is done at once.
exports.open = function open(page) {
  const [, data] = page.match(/id="book">\n([^]*?)\n<\/script>/);
  const [, script] = page.match(/<script nonce="page">\n([^]*?)<\/script>/);
  const ids = Object.fromEntries([...page.matchAll(/ id="([a-z-]+)"/g)].map(([, id]) => [id, new Element(id)]));
  ids.book.textContent = data;
  const [body, root, listeners, frames, timers] = [new Element(), new Element(), {}, [], new Map()];
  const document = {
    body, documentElement: root, activeElement: body,
    getElementById: (id) => ids[id] || null,
    createElement: () => new Element(),
    createElementNS: () => new Element(),
  };
  Element.prototype.focus = function focus() { document.activeElement = this; };
  vm.runInNewContext(script, {
    document, Element,
    addEventListener: (name, act) => (listeners[name] ||= []).push(act),
    matchMedia: () => ({ matches: false, addEventListener() {} }),
    requestAnimationFrame: (act) => frames.push(act),
    setTimeout: (act) => timers.set({}, act) && [...timers.keys()].pop(),
    clearTimeout: (key) => timers.delete(key),
    location: { hash: '' }, history: { replaceState() {} }, performance: { now: () => 1 },
    devicePixelRatio: 1, innerWidth: 1280, innerHeight: 800,
  });
  function settle() {
    while (frames.length || timers.size) {
      const acts = [...frames.splice(0), ...timers.values()];
      timers.clear();
      acts.forEach((act) => act());
    }
  }
  settle();
  return {
    ids, document,
    text: (id) => ids[id].textContent,
    // Something happens to an element; gives whether it was kept from the browser.
    happens(target, name, more) {
      const event = { target, ...more, preventDefault() { this.kept = true; } };
      [...(target.listeners[name] || []), ...(listeners[name] || [])].forEach((act) => act(event));
      settle();
      return event.kept === true;
    },
  };
};
