// The view of all orders: each outcome, a way to it, and the graph of configurations.
'use strict';
(function (pict) {
  const MOST = 600;
  const $ = id => document.getElementById(id);
  const make = (...its) => pict.views.make(...its);
  const textOf = bytes => new TextDecoder().decode(bytes);
  const ARROWS = 'Each arrow is a reduction, and shows what it does when it is pointed at; broad ones print. Nothing is ready where ' +
    'there are two circles.';
  const note = text => make('p', { className: 'note', textContent: text });
  const orders = pict.orders = {};

  // An outcome, with a button for a way to it.
  function item(it, ask) {
    const way = make('button', { textContent: 'A way there', says: `A way to outcome ${it.number}`, onclick: () => ask(it.number) });
    return make('li', { value: it.number },
      make('div', { className: 'bar' }, make('strong', { textContent: it.prints }), way),
      make('pre', { textContent: it.lines.join('\n') }));
  }

  // Shows what all orders come to. `ask` asks for what else is to be told of them: a way (with the number of its outcome) or the
  // graph.
  orders.show = function (lines, ask) {
    const { head, outcomes, note: more } = pict.readOutcomes(lines), count = pict.configurationsIn(head);
    const list = make('ol', { className: 'outcomes' }, ...outcomes.map(it => item(it, number => ask('way', number))));
    const small = count <= MOST, tooMany = `The graph is drawn of at most ${MOST} configurations.`;
    const begin = make('p', {}, make('strong', { textContent: `${head}. ` }), more);
    const graph = make('div', { id: 'graph' }, ...(small ? [] : [note(tooMany)]));
    $('panel').replaceChildren(begin, list, make('div', { id: 'way' }), graph);
    if (small) ask('graph');
  };

  // Shows a way to an outcome: the chart of what its steps show, and its replay file.
  orders.way = function (said, number) {
    const file = textOf(said.out), steps = file.split('\n').indexOf('trace');
    const title = make('h2', { textContent: `A way to outcome ${number}, of ${steps} steps` });
    const href = 'data:text/plain;charset=utf-8,' + encodeURIComponent(file), chart = make('div', {});
    const saved = make('a', { textContent: 'Save as a replay file', download: `way-${number}.replay`, href });
    $('way').replaceChildren(title, chart, make('p', {}, saved, ': pict replay answers yes to it.'));
    pict.views.chart(said, null, 0, chart);
    title.scrollIntoView({ block: 'nearest' });
  };

  orders.graph = function (said) {
    const graph = pict.readGraph(textOf(said.out)), width = Math.max(260, $('panel').clientWidth - 4);
    const says = `Graph of ${graph.count} configurations and ${graph.edges.length} reductions`;
    $('graph').replaceChildren(make('h2', { textContent: 'The graph' }),
      note(ARROWS),
      make('div', { className: 'chart', innerHTML: pict.drawGraph(graph, width), says }));
  };
})(globalThis.pict = globalThis.pict || {});
