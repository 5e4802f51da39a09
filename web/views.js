// What the tabs show of an answer: output, trace, listing, chart, and the forms of the language.
'use strict';
(function (pict) {
  const SHOWN = 200000, ROWS = 200;
  const NOTHING = {
    run: 'Nothing is printed.', trace: 'No message is received, and nothing is printed.', code: 'There is no listing.',
    orders: 'Nothing is told.',
  };
  const $ = id => document.getElementById(id);
  const textOf = bytes => new TextDecoder().decode(bytes);
  const views = pict.views = {};

  // An element of this name, with these properties and contents; `says` names it to who doesn't see it.
  const make = views.make = function (name, properties, ...inside) {
    const { says, ...rest } = properties, it = Object.assign(document.createElement(name), rest);
    if (says) it.setAttribute('aria-label', says);
    it.append(...inside);
    return it;
  };
  const panel = (...inside) => $('panel').replaceChildren(...inside);
  const note = text => make('p', { className: 'note', textContent: text });

  // Bytes as text: what is printed, a trace or a listing. `reasons` say who waits at the end.
  views.text = function (said, name, reasons = '') {
    const notes = said.out.length > SHOWN ? [note(`${said.out.length} bytes, of which the first ${SHOWN} are shown.`)] : [];
    if (said.out.length === 0 && said.last) notes.push(note(NOTHING[name]));
    if (reasons) notes.push(make('section', { className: 'reasons', says: 'Who waits' }, make('pre', { textContent: reasons })));
    panel(make('pre', { textContent: textOf(said.out.subarray(0, SHOWN)), className: name === 'run' ? '' : 'code' }), ...notes);
  };

  function saved(events) {
    const svg = pict.drawChart(events, 900).replace('>', '>' + pict.CHART_STYLE);
    const href = 'data:image/svg+xml;charset=utf-8,' + encodeURIComponent(svg);
    return make('a', { textContent: 'Save as SVG', download: 'run.svg', href });
  }

  // A trace as a chart, so many rows at a time. `go`, if there is one, is called with the number of a step whose row is chosen.
  views.chart = function (said, go, from = 0, into = $('panel')) {
    const events = pict.readTrace(pict.traceIn(textOf(said.out)).replace(/[^\n]*$/, ''));
    if (!events || events.length === 0) { into.replaceChildren(note(NOTHING.trace)); return; }
    const shown = events.slice(from, from + ROWS), width = Math.max(300, $('panel').clientWidth - 4);
    const turn = (textContent, to, disabled) =>
      make('button', { textContent, disabled, onclick: () => views.chart(said, go, to, into) });
    const parts = events.length <= ROWS ? [] : [
      turn('Earlier', from - ROWS, from === 0), turn('Later', from + ROWS, from + ROWS >= events.length),
      make('span', { className: 'note', textContent: `Lines ${from + 1} to ${from + shown.length} of ${events.length}` }),
    ];
    const box = make('div', {
      className: 'chart', innerHTML: pict.drawChart(shown, width), says: `Chart of ${shown.length} lines of the trace`,
      onclick: event => chosen(event, go),
    });
    const legend = make('ul', { className: 'legend', innerHTML: pict.LEGEND });
    into.replaceChildren(legend, make('div', { className: 'bar' }, ...parts, saved(shown)), box);
  };

  function chosen(event, go) {
    const row = event.target.closest('.event');
    if (row && go) go(Number(row.dataset.step));
  }

  // The forms of the language. `load` puts an example into the editor.
  views.forms = function (load) {
    const example = text => make('button', { textContent: 'Example', title: text, onclick: () => load(text) });
    const row = it => make('tr', {},
      make('td', { innerHTML: it.form }), make('td', { innerHTML: it.means }),
      make('td', {}, ...(it.text === undefined ? [] : [example(it.text)])));
    panel(...pict.FORMS.flatMap(group => [
      make('h2', { textContent: group.topic }),
      make('table', { className: 'forms' }, make('tbody', {}, ...group.rows.map(row))),
    ]));
  };
})(globalThis.pict = globalThis.pict || {});
