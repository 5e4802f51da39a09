// The view of the steps: forwards and back, with who acts, who is ready and who waits.
'use strict';
(function (pict) {
  const $ = id => document.getElementById(id);
  const make = (...its) => pict.views.make(...its);
  const stepper = pict.stepper = {};
  let told = null, at = 0, wanted = null;

  // Signs as pictures, since fonts lack some of them.
  const SIGNS = {
    first: '<path d="M2 2h2v12H2zM14 2v12L5 8z"/>', back: '<path d="M12 2v12L3 8z"/>',
    on: '<path d="M4 2v12l9-6z"/>', last: '<path d="M12 2h2v12h-2zM2 2v12l9-6z"/>',
  };

  const entryText = it => `${it.stamp}  ${it.process}${it.place ? '  ' + it.place : ''}`;
  const list = entries => make('ul', {}, ...entries.map(it => make('li', { textContent: entryText(it) })));

  // What is marked and shown goes when the text has changed.
  stepper.forget = function () { told = null; at = 0; wanted = null; };

  // Goes to the step of this number, now or once steps are told.
  stepper.goWhenTold = function (number) {
    if ($('step')) stepper.go(number); else wanted = number;
  };

  function button(sign, name, to) {
    const picture = `<svg viewBox="0 0 16 16" aria-hidden="true">${SIGNS[sign]}</svg>`;
    return make('button', { innerHTML: picture, title: name, says: name, onclick: () => stepper.go(to()) });
  }

  // Shows the steps that these lines tell, at the step that was shown last.
  stepper.show = function (lines) {
    // (of lines that are longer than their buffer the last one is cut)
    told = pict.readSteps(lines.replace(/[^\n]*$/, ''));
    const count = told.steps.length;
    const slid = event => stepper.go(Number(event.target.value));
    const slider = make('input', { type: 'range', min: 0, max: count, id: 'step', says: 'Step', oninput: slid });
    const bar = make('div', { className: 'bar' },
      button('first', 'To the beginning (Home)', () => 0), button('back', 'One step back (left arrow)', () => at - 1),
      slider, button('on', 'One step on (right arrow)', () => at + 1), button('last', 'To the end (End)', () => count));
    $('panel').replaceChildren(bar, make('div', { id: 'now' }), make('div', { className: 'wide' }, table()));
    stepper.go(wanted ?? at);
    wanted = null;
  };

  function table() {
    const heads = ['step', 'stamp', 'row', 'partner', 'shows'].map(head => make('th', { scope: 'col', textContent: head }));
    const rows = told.steps.map((it, index) => {
      const cells = [it.number, it.actor, it.rule, it.partner ?? '', it.shown];
      return make('tr', { onclick: () => stepper.go(index + 1) }, ...cells.map(cell => make('td', { textContent: cell })));
    });
    return make('table', { className: 'steps' }, make('caption', { className: 'unseen', textContent: 'All steps' }),
      make('thead', {}, make('tr', {}, ...heads)), make('tbody', { id: 'rows' }, ...rows));
  }

  // What happens in a step.
  function sentence(it, before) {
    const who = stamp => make('code', { textContent: entryText(before.find(entry => entry.stamp === stamp)) });
    return make('p', {},
      make('strong', { textContent: `Step ${it.number}, ${it.rule}. ` }), who(it.actor), '. ', pict.RULES[it.rule] || '',
      ...(it.partner === null ? [] : [' With ', who(it.partner), '.']),
      ...(it.shown ? [' It shows ', make('code', { textContent: it.shown }), '.'] : []));
  }

  // Why no step is told behind the last one.
  function ending(state, count) {
    const waits = state.some(it => !it.ready) ? 'Who waits here waits for ever.' : 'Nobody waits.';
    if (told.end === 'finished') return `Nobody is ready: the run is finished. ${waits}`;
    if (told.end === 'goes on' || told.end === '') return `The run goes on; its first ${count} steps are shown.`;
    return `The next step divides by zero, at ${told.end.replace(/^divides /, '')}.`;
  }

  // Who is ready, and who waits, channel by channel.
  function present(state) {
    const ready = state.filter(it => it.ready), sends = it => /^[^?]*!/.test(it.process);
    const group = (heading, entries) => make('div', {}, make('h3', { textContent: heading }), list(entries));
    const waits = [...pict.waitingByChannel(state)].map(([name, entries]) =>
      group(`${sends(entries[0]) ? 'Messages wait' : 'Readers wait'} at ${name}`, entries));
    const acts = group(ready.length ? 'Ready; the first acts next' : 'Nobody is ready', ready);
    return make('div', { className: 'who' }, acts, ...waits);
  }

  // Marks who acts, and with whom, in the text.
  function marked(it, before) {
    const marks = [];
    for (const [stamp, kind] of it ? [[it.partner, 'partner'], [it.actor, 'actor']] : []) {
      const place = pict.placeOf((before.find(entry => entry.stamp === stamp) || {}).place);
      if (!place) continue;
      marks.push([pict.editor.offsetOf(place.line, place.column), kind]);
      if (kind === 'actor') pict.editor.reveal(place.line);
    }
    pict.editor.paint(marks);
  }

  // Shows what is there after so many steps.
  stepper.go = function (to) {
    if (!told) return;
    const count = told.steps.length;
    at = Math.max(0, Math.min(count, to));
    const it = told.steps[at - 1], before = pict.stateAfter(told, Math.max(0, at - 1)), state = pict.stateAfter(told, at);
    const parts = [it ? sentence(it, before) : make('p', { textContent: `Before the first of ${count} steps.` })];
    if (at === count) parts.push(make('p', { textContent: ending(state, count) }));
    $('now').replaceChildren(...parts, present(state));
    $('step').value = at;
    $('step').setAttribute('aria-valuetext', `step ${at} of ${count}`);
    for (const [index, row] of [...$('rows').children].entries()) {
      if (index === at - 1) row.setAttribute('aria-current', 'step'); else row.removeAttribute('aria-current');
    }
    marked(it, before);
  };

  // Goes on from a key, if it is one of the steps'.
  stepper.key = function (key) {
    const to = told && { ArrowLeft: at - 1, ArrowRight: at + 1, Home: 0, End: told.steps.length }[key];
    if (to === null || to === undefined) return false;
    stepper.go(to);
    return true;
  };
})(globalThis.pict = globalThis.pict || {});
