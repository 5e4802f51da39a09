// The graph of a program's configurations as a small picture: a row for each number of steps, from the first one down.
'use strict';
(function (pict) {
  const HEAD = '<marker id="head" viewBox="0 0 8 8" refX="14" refY="4" markerWidth="8" markerHeight="8" ' +
    'markerUnits="userSpaceOnUse" orient="auto"><path class="tip" d="M 0 1 L 8 4 L 0 7 z"/></marker>';
  const DOWN = 34, GAP = 26, EDGE = 14, LEAST = 260;

  // The vertices by rows: in each those that so many steps reach at the least, below the ones that lead there.
  pict.rowsOf = function ({ count, edges }) {
    const next = Array.from({ length: count }, () => []), rowOf = new Array(count).fill(-1), rows = [];
    for (const { from, to } of edges) next[from].push(to);
    let row = [0];
    rowOf[0] = 0;
    while (row.length > 0) {
      rows.push(row);
      const after = [];
      for (const from of row) {
        for (const to of next[from]) {
          if (rowOf[to] >= 0) continue;
          rowOf[to] = rows.length;
          after.push(to);
        }
      }
      row = after;
    }
    return { rows, rowOf };
  };

  // Where each vertex stands, in a picture of this width.
  function placed(rows, rowOf, width) {
    const at = [];
    rows.forEach((row, y) => row.forEach((vertex, index) => {
      const gap = Math.min(3 * GAP, (width - 2 * EDGE) / row.length);
      at[vertex] = { x: width / 2 + (index - (row.length - 1) / 2) * gap, y: EDGE + y * DOWN };
    }));
    return at;
  }

  // An arrow: straight to the next row, curved where it passes rows or goes back.
  function arrow({ from, to, label }, at, rowOf) {
    const a = at[from], b = at[to], far = rowOf[to] !== rowOf[from] + 1, side = b.x >= a.x ? 1 : -1;
    const out = side * (20 + 5 * Math.abs(rowOf[to] - rowOf[from]));
    const bend = far ? `Q ${(a.x + b.x) / 2 + out} ${(a.y + b.y) / 2}` : 'L';
    const kind = /^prints /.test(label) ? 'edge prints' : 'edge';
    const line = from === to ? `M ${a.x + 4} ${a.y} q 14 -12 14 0 t -14 4` : `M ${a.x} ${a.y} ${bend} ${b.x} ${b.y}`;
    const title = `<title>${pict.escape(label || 'a quiet step')}</title>`;
    return `<path class="${kind}" marker-end="url(#head)" d="${line}">${title}</path>`;
  }

  function vertex(number, { x, y }, isEnd) {
    const end = isEnd ? `<circle class="vertex" cx="${x}" cy="${y}" r="7.5"/>` : '';
    const title = `${number === 0 ? 'the beginning' : `configuration ${number}`}${isEnd ? ', where nothing is ready' : ''}`;
    const kind = number === 0 ? 'vertex begin' : 'vertex';
    return `<g><title>${title}</title>${end}<circle class="${kind}" cx="${x}" cy="${y}" r="4.5"/></g>`;
  }

  // The graph as SVG, of this width or of as much as its broadest row needs.
  pict.drawGraph = function (graph, width) {
    const { rows, rowOf } = pict.rowsOf(graph), broadest = Math.max(...rows.map(it => it.length));
    const wide = Math.max(LEAST, width, broadest * GAP / 2 + 2 * EDGE), height = 2 * EDGE + (rows.length - 1) * DOWN;
    const at = placed(rows, rowOf, wide);
    return [
      `<svg xmlns="http://www.w3.org/2000/svg" width="${wide}" height="${height}" viewBox="0 0 ${wide} ${height}">`,
      HEAD,
      ...graph.edges.filter(it => at[it.from] && at[it.to]).map(it => arrow(it, at, rowOf)),
      ...rows.flat().map(it => vertex(it, at[it], graph.ends.has(it))),
      '</svg>',
    ].join('\n') + '\n';
  };
})(globalThis.pict = globalThis.pict || {});
