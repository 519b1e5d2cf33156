'use strict';
// What a page of report-page does: it fills lines that are opened, filters them, and follows its own links.
(() => {
  const byId = id => document.getElementById(id);
  const form = byId('filter'), query = byId('q'), rule = byId('rule'), pack = byId('package'), shown = byId('shown');
  const total = +shown.dataset.n;
  const packs = [...document.querySelectorAll('.p')];
  const groups = [...document.querySelectorAll('.group')];
  const texts = new Map();
  let parsed, tops, drawn = 0, filtered = false;

  const data = () => parsed = parsed || JSON.parse(byId('data').textContent);

  // the number of the line into which a line is folded
  function top(number) {
    if (!tops) {
      tops = {};
      for (const line in data().n) for (const folded of data().n[line].f || []) tops[folded[0]] = line;
    }
    return tops[number] || number;
  }

  // ---- lists of a long report, which are text at first

  function draw(section) {
    const text = section.querySelector('script');
    if (!text) return;
    const list = document.createElement('ul');
    list.innerHTML = text.textContent;
    text.replaceWith(list);
  }

  const drawAll = () => { while (drawn < packs.length) draw(packs[drawn++]); };

  // a part at a time, so that the page answers meanwhile
  function drawSome() {
    const end = performance.now() + 20;
    while (drawn < packs.length && performance.now() < end) draw(packs[drawn++]);
    if (drawn < packs.length) setTimeout(drawSome, 10);
  }

  // ---- a line that is opened

  function make(name, text, inside = []) {
    const element = document.createElement(name);
    if (text) element.textContent = text;
    element.append(...inside);
    return element;
  }

  function fill(details) {
    const item = details.parentNode, line = data().n[item.id.slice(1)];
    if (!line || details.children.length > 1) return;
    const list = make('dl'), row = (name, ...what) => list.append(make('dt', name), make('dd', '', what));
    row('breaks', data().d[line.s]);
    if (line.a !== undefined) {
      const link = make('a', 'What this means, and what to do');
      link.href = '#' + data().d[line.a];
      row('more', link);
    }
    if (line.f) {
      const folded = make('ul', '', line.f.map(other => make('li', '', [make('code', other[0] + ' ' + other[1])])));
      if (line.f.length > 12) { folded.className = 'many'; folded.tabIndex = 0; }
      row(line.f.length + ' folded', folded);
    }
    if (line.w) {
      const code = make('pre');
      for (const place of line.w) {
        const [text, error] = data().d[place].split('    \u2190');
        code.append(text, error ? make('mark', '    \u2190' + error) : '', '\n');
      }
      code.tabIndex = 0;
      row('a client that breaks', code);
    }
    row('line of the report', make('code', line.t));
    details.append(list);
  }

  // ---- the filter

  function text(item) {
    let known = texts.get(item);
    if (known === undefined) {
      const line = data().n[item.id.slice(1)];
      known = (item.textContent + ' ' + line.t + ' ' + line.t.replaceAll('/', '.') + ' ' + (line.f || []).map(other => other.join(' ')).join(' ')).toLowerCase();
      texts.set(item, known);
    }
    return known;
  }

  function filter() {
    const words = query.value.toLowerCase().split(/\s+/).filter(word => word);
    const any = words.length || rule.value || pack.value;
    if (!any && !filtered) { tell(total); return; }
    filtered = any;
    drawAll();
    let count = 0;
    for (const section of packs) {
      const inside = !pack.value || section.dataset.p === pack.value;
      let here = 0;
      for (const item of section.querySelectorAll('li[data-r]')) {
        const on = inside && (!rule.value || item.dataset.r === rule.value) && words.every(word => text(item).includes(word));
        item.hidden = !on;
        if (on) here++;
      }
      section.hidden = !here;
      count += here;
    }
    for (const group of groups) {
      group.hidden = !group.querySelector('.p:not([hidden])');
      const rest = group.querySelector(':scope>details.rest');
      if (rest && !group.hidden && any && count < 200) rest.open = true;
    }
    tell(count);
  }

  function tell(count) {
    shown.value = count === total ? count + ' lines' : count ? count + ' of ' + total + ' lines' : 'No line has this. Show all?';
  }

  // ---- the address: #n8 opens a line, #rule=H8&package=..&q=.. filters, others name a place

  function keep() {
    const words = new URLSearchParams();
    if (query.value) words.set('q', query.value);
    if (rule.value) words.set('rule', rule.value);
    if (pack.value) words.set('package', pack.value);
    try { history.replaceState(null, '', '#' + words); } catch (refused) { /* a page may not be let to */ }
  }

  // what lies above isn't laid out before it is near, so a second look is needed
  function show(element) {
    element.scrollIntoView();
    requestAnimationFrame(() => { element.scrollIntoView(); requestAnimationFrame(() => element.scrollIntoView()); });
  }

  function open(inside) {
    for (let details = inside.closest('details'); details; details = details.parentNode.closest('details')) details.open = true;
  }

  function follow(isFirst) {
    const hash = location.hash.slice(1), number = /^n(\d+)$/.exec(hash);
    document.querySelectorAll('.at').forEach(item => item.classList.remove('at'));
    if (number) {
      drawAll();
      const item = byId('n' + top(number[1]));
      if (!item) return;
      query.value = rule.value = pack.value = '';
      filter();
      open(item);
      item.firstElementChild.open = true;
      fill(item.firstElementChild);
      item.classList.add('at');
      item.querySelector('summary').focus({preventScroll: true});
      show(item);
    } else if (hash.includes('=')) {
      const words = new URLSearchParams(hash);
      query.value = words.get('q') || '';
      rule.value = words.get('rule') || '';
      pack.value = words.get('package') || '';
      filter();
      if (!isFirst) show(byId('h-lines'));
    } else if (hash && byId(hash)) {
      open(byId(hash));
      show(byId(hash));
    }
  }

  document.addEventListener('toggle', event => { if (event.target.open && event.target.parentNode.matches('.p li')) fill(event.target); }, true);
  form.hidden = false;
  form.addEventListener('submit', event => event.preventDefault());
  form.addEventListener('input', () => { filter(); keep(); });
  form.addEventListener('reset', () => setTimeout(() => { filter(); keep(); }));
  addEventListener('hashchange', () => follow(false));
  document.addEventListener('keydown', event => {
    if (event.key === '/' && !/INPUT|SELECT/.test(document.activeElement.tagName)) { event.preventDefault(); query.focus(); }
  });
  tell(total);
  // nothing is drawn before the page is seen
  const start = () => { follow(true); setTimeout(drawSome, 50); document.documentElement.dataset.ready = 'yes'; };
  if (document.readyState === 'complete') start(); else addEventListener('load', start);
})();
