// A trace as a sequence chart: time runs downwards, a row for each line, and a lifeline for each channel.
'use strict';
(function (pict) {
  const LINE = /^(0|[1-9][0-9]*) (?:c(0|[1-9][0-9]*) (.+)|print ("(?:[^"\\]|\\.)*"))$/;
  const LITERAL = /"(?:[^"\\]|\\.)*"|'(?:[^'\\]|\\.)*'/g;
  const CHANNEL = /(?<![A-Za-z0-9_'])c(0|[1-9][0-9]*)(?![A-Za-z0-9_'=])/g;
  const ROW = 22, LEFT = 50, LETTER = 6.7, TEXT = 190, NARROW = 24, BROAD = 84, LEAST = 14;

  // The channels that a value names, each once.
  function namedIn(shown) {
    const numbers = [...shown.replace(LITERAL, '').matchAll(CHANNEL)].map(it => Number(it[1]));
    return [...new Set(numbers)].sort((a, b) => a - b);
  }

  // The events of a trace, or null where a line is none. An event's channel is null where something is printed.
  // A trace alone: all lines, or those behind choices and the line `trace`.
  pict.traceIn = function (text) {
    const cut = /^trace\n/m.exec(text);
    return cut ? text.slice(cut.index + cut[0].length) : text;
  };

  pict.readTrace = function (text) {
    const lines = text.split('\n');
    if (lines.pop() !== '') return null;
    const events = [];
    for (const line of lines) {
      const found = LINE.exec(line);
      if (!found) return null;
      const [, step, channel, value, printed] = found;
      if (channel === undefined) events.push({ step, channel: null, shown: printed, named: [] });
      else events.push({ step, channel: Number(channel), shown: value, named: namedIn(value) });
    }
    return events;
  };

  // For each channel of the events its first row, its last row and its column: the first one that is free from its first row
  // on. Two channels that never live at once may share a column.
  pict.lifelines = function (events) {
    const rows = new Map(), freeFrom = [], lines = [];
    events.forEach((event, row) => {
      for (const channel of event.channel === null ? [] : [event.channel, ...event.named]) {
        if (!rows.has(channel)) rows.set(channel, [row, row]);
        rows.get(channel)[1] = row;
      }
    });
    for (const [channel, [first, last]] of rows) {
      let column = freeFrom.findIndex(row => row < first - 1);
      if (column < 0) column = freeFrom.length;
      freeFrom[column] = last;
      lines.push({ channel, first, last, column });
    }
    return { lines, columns: freeFrom.length };
  };

  const shortened = (text, letters) => text.length <= letters ? text : text.slice(0, letters - 1) + '\u2026';
  const sayOf = event => event.channel === null ? `prints ${event.shown}` : `${event.shown} on c${event.channel}`;

  // Where things stand, in a picture that is as wide as it is asked to be where it can.
  function measured(events, columns, width) {
    const gap = Math.max(NARROW, Math.min(BROAD, Math.floor((width - LEFT - TEXT) / (columns + 1))));
    const text = LEFT + (columns + 1) * gap, downs = [];
    let down = ROW * 1.5;
    for (const event of events) {
      downs.push(down += event.named.length > 1 ? 5 * (event.named.length - 1) : 0);
      down += ROW;
    }
    return {
      at: column => LEFT + column * gap + gap / 2,
      down: row => downs[row],
      printed: LEFT + columns * gap + gap / 2,
      text,
      letters: Math.max(LEAST, Math.floor((width - text - 4) / LETTER)),
      width: Math.max(width, Math.ceil(text + LEAST * LETTER + 4)),
      height: down,
    };
  }

  // What is drawn of an event: its dot, arcs to the channels that it names, and a text.
  function drawnEvent(event, row, places, columnOf) {
    const y = places.down(row), prints = event.channel === null;
    const x = prints ? places.printed : places.at(columnOf.get(event.channel));
    // (the nearest arc is the lowest)
    const ends = event.named.filter(channel => channel !== event.channel).map(channel => places.at(columnOf.get(channel)));
    const arcs = ends.sort((a, b) => Math.abs(a - x) - Math.abs(b - x)).map((to, index) => {
      return `<path class="names" d="M ${x} ${y} Q ${(x + to) / 2} ${y - 16 - 10 * index} ${to} ${y}"/>` +
        `<circle class="named" cx="${to}" cy="${y}" r="3"/>`;
    });
    return [
      `<g class="event" data-step="${event.step}"><title>step ${event.step}: ${pict.escape(sayOf(event))}</title>`,
      `<path class="row" d="M ${LEFT} ${y} H ${places.text - 6}"/>`,
      `<text class="step" x="${LEFT - 10}" y="${y + 4}">${event.step}</text>`,
      ...arcs,
      prints ? `<rect class="print" x="${x - 5}" y="${y - 5}" width="10" height="10"/>` : '',
      prints ? '' : `<circle class="comm" cx="${x}" cy="${y}" r="5"/>`,
      `<text x="${places.text}" y="${y + 4}">${pict.escape(shortened(sayOf(event), places.letters))}</text></g>`,
    ].join('');
  }

  // The head of a lifeline, in the row above its first event.
  function drawnHead(line, places) {
    const x = places.at(line.column), y = places.down(line.first) - ROW;
    const name = `c${line.channel}`, half = (name.length * 6 + 5) / 2;
    return `<rect class="head" x="${x - half}" y="${y - 8}" width="${2 * half}" height="16" rx="3"/>` +
      `<text class="name" x="${x}" y="${y + 4}">${name}</text>`;
  }

  // The chart as SVG, of about this width.
  pict.drawChart = function (events, width) {
    const { lines, columns } = pict.lifelines(events), places = measured(events, columns, width);
    const columnOf = new Map(lines.map(line => [line.channel, line.column]));
    const { width: wide, height } = places;
    const life = line => `M ${places.at(line.column)} ${places.down(line.first) - ROW} V ${places.down(line.last) + 8}`;
    return [
      `<svg xmlns="http://www.w3.org/2000/svg" width="${wide}" height="${height}" viewBox="0 0 ${wide} ${height}">`,
      ...lines.map(line => `<path class="life" d="${life(line)}"/>`),
      ...events.map((event, row) => drawnEvent(event, row, places, columnOf)),
      ...lines.map(line => drawnHead(line, places)),
      '</svg>',
    ].join('\n') + '\n';
  };

  // What the marks mean, as items of a list.
  pict.LEGEND = [
    ['<circle class="comm" cx="12" cy="8" r="5"/>', 'a value is received on the channel of this line'],
    ['<path class="names" d="M 2 12 Q 12 -2 22 12"/><circle class="named" cx="22" cy="12" r="2"/>', 'it names this channel'],
    ['<rect class="print" x="7" y="3" width="10" height="10"/>', 'something is printed'],
  ].map(([mark, text]) => `<li><svg viewBox="0 0 24 16" aria-hidden="true">${mark}</svg> ${text}</li>`).join('');

  // The style of a chart that is saved.
  pict.CHART_STYLE = `<style>text { font: 11px monospace; fill: #222 } .step { text-anchor: end; fill: #777 }
    .life { stroke: #9ab; stroke-width: 1.5 } .row { stroke: #eee } .head { fill: #e8eef4; stroke: #678 }
    .name { text-anchor: middle; font-size: 10px } .names { stroke: #a3541f; fill: none; stroke-dasharray: 4 2 }
    .named { fill: #a3541f } .comm { fill: #2b6cb0 } .print { fill: #2f7d4f }</style>
    <rect width="100%" height="100%" fill="#fff"/>`;
})(globalThis.pict = globalThis.pict || {});
