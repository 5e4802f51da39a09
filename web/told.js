// What the program tells as lines, read: the steps of a run, with who is there after each of them, and all orders.
'use strict';
(function (pict) {
  // { first, steps: [{ number, actor, rule, partner, shown, come }], end }; `first` and `come` are entries
  // { stamp, ready, process, place }.
  pict.readSteps = function (text) {
    const told = { first: [], steps: [], end: '' };
    let come = told.first;
    for (const line of text.split('\n')) {
      const [word, ...rest] = line.split('\t');
      if (word === 'come') {
        const [stamp, state, process, place] = rest;
        come.push({ stamp: Number(stamp), ready: state === 'ready', process, place });
      } else if (word === 'step') {
        const [number, actor, rule, partner, shown] = rest;
        come = [];
        const other = partner === '' ? null : Number(partner);
        told.steps.push({ number: Number(number), actor: Number(actor), rule, partner: other, shown, come });
      } else if (word === 'end') {
        told.end = rest.join(' ');
      }
    }
    return told;
  };

  // The processes before the first step (0) or after so many steps, by stamps: in a step the one that acts and its partner
  // leave, and then those come that the step tells.
  pict.stateAfter = function (told, count) {
    const there = new Map(told.first.map(entry => [entry.stamp, entry]));
    for (const step of told.steps.slice(0, count)) {
      there.delete(step.actor);
      there.delete(step.partner);
      for (const entry of step.come) there.set(entry.stamp, entry);
    }
    return [...there.values()].sort((a, b) => a.stamp - b.stamp);
  };

  // Those who wait, by channels: a map from a channel's name to its entries, the one that waits longest first.
  pict.waitingByChannel = function (state) {
    const channels = new Map();
    for (const entry of state.filter(it => !it.ready)) {
      const name = /^[^!?]*/.exec(entry.process)[0];
      if (!channels.has(name)) channels.set(name, []);
      channels.get(name).push(entry);
    }
    return new Map([...channels].sort(([a], [b]) => a.length - b.length || (a < b ? -1 : 1)));
  };

  // The line and column of a place of the text, or null: `4:5`, or `..4:5` for the first output behind it. A place in the
  // prelude is none.
  pict.placeOf = function (place) {
    const found = /^(?:\.\.)?([0-9]+):([0-9]+)$/.exec(place || '');
    return found ? { line: Number(found[1]), column: Number(found[2]) } : null;
  };

  // What is told of all orders: { head, outcomes: [{ number, prints, lines }], note }. The first line counts configurations, and
  // each outcome begins with its number.
  pict.readOutcomes = function (text) {
    const [head, ...lines] = text.split('\n'), outcomes = [], notes = [];
    for (const line of lines) {
      const first = /^([1-9][0-9]*)\. (.*)$/.exec(line);
      if (first) outcomes.push({ number: Number(first[1]), prints: first[2], lines: [] });
      else if (/^ /.test(line) && outcomes.length > 0) outcomes[outcomes.length - 1].lines.push(line.replace(/^   /, ''));
      else if (line !== '') notes.push(line);
    }
    return { head, outcomes, note: notes.join(' ') };
  };

  // How many configurations the first line counts.
  pict.configurationsIn = head => Number(/^[0-9]*/.exec(head)[0]);

  // The graph of configurations from its text for Graphviz: { count, ends, edges: [{ from, to, label }] }. Its vertices are the
  // numbers below `count`, of which 0 is the first.
  pict.readGraph = function (text) {
    const edges = [], ends = new Set();
    for (const line of text.split('\n')) {
      const end = /^([0-9]+) \[shape=doublecircle\]$/.exec(line), edge = /^([0-9]+) -> ([0-9]+) \[label="(.*)"\]$/.exec(line);
      if (end) ends.add(Number(end[1]));
      if (edge) edges.push({ from: Number(edge[1]), to: Number(edge[2]), label: edge[3].replace(/\\(.)/g, '$1') });
    }
    const count = Math.max(0, ...ends, ...edges.flatMap(it => [it.from, it.to])) + 1;
    return { count, ends, edges };
  };

  // What each row of the table of steps does.
  pict.RULES = {
    ends: 'The process is done, and ends.',
    forks: 'Two processes side by side: the first goes on now, the second is ready later.',
    makes_channel: 'A new channel is made, which nobody else knows yet.',
    takes_first: 'The condition is true: the first branch goes on.',
    takes_second: 'The condition is false: the second branch goes on.',
    primitive_ends: 'A primitive acts, and the process ends.',
    primitive_answers: 'A primitive acts, and its answer goes on.',
    output_parks: 'Nobody reads this channel: the message waits there.',
    output_meets_reader: 'A reader waits on this channel: it receives the message, and goes on later.',
    output_meets_server: 'A server waits on this channel: a copy of it receives the message, and the server stays.',
    input_parks: 'No message waits on this channel: the reader waits there.',
    reader_meets_message: 'A message waits on this channel: the reader receives the one that waits longest, and goes on later.',
    server_meets_message: 'A message waits on this channel: a copy of the server receives it, and the server goes on.',
  };
})(globalThis.pict = globalThis.pict || {});
