// The editor: a text area over its own text in colours. Undo, selection, touch and screen readers are the browser's.
'use strict';
(function (pict) {
  const COLORED = 60000, LINE = 21;
  const $ = id => document.getElementById(id);
  const bytesOf = text => new TextEncoder().encode(text);
  let marks = [];

  const editor = pict.editor = {
    get text() { return $('source').value; },
    get bytes() { return bytesOf($('source').value); },
  };

  // The offset in the text of a line and a column, which count bytes from 1.
  editor.offsetOf = function (line, column) {
    const lines = editor.text.split('\n');
    const before = lines.slice(0, line - 1).reduce((sum, it) => sum + it.length + 1, 0);
    return before + new TextDecoder().decode(bytesOf(lines[line - 1] || '').subarray(0, column - 1)).length;
  };

  editor.lineAt = line => editor.text.split('\n')[line - 1] || '';

  // Shows the text in colours, with these marks (pairs of an offset and a kind), and the numbers of its lines.
  editor.paint = function (its) {
    marks = its || marks;
    const plain = editor.text.length > COLORED, count = editor.text.split('\n').length;
    $('source').classList.toggle('plain', plain);
    $('colors').innerHTML = plain ? '' : pict.colored(editor.text, marks) + '\n';
    if ($('numbers').dataset.count !== String(count)) {
      $('numbers').dataset.count = count;
      $('numbers').textContent = Array.from({ length: count }, (_, index) => index + 1).join('\n');
    }
    follow();
  };

  function follow() {
    $('colors').style.transform = `translate(${-$('source').scrollLeft}px, ${-$('source').scrollTop}px)`;
    $('numbers').scrollTop = $('source').scrollTop;
  }

  // Says where the cursor stands.
  function where() {
    const before = editor.text.slice(0, $('source').selectionStart).split('\n');
    $('place').textContent = `Line ${before.length}, column ${bytesOf(before[before.length - 1]).length + 1}`;
  }

  // Brings a line into sight.
  editor.reveal = function (line) {
    const top = $('source').scrollTop, height = $('source').clientHeight, down = (line - 1) * LINE;
    if (down < top + LINE || down > top + height - 3 * LINE) $('source').scrollTop = Math.max(0, down - height / 3);
    follow();
  };

  editor.goTo = function (line, column) {
    const offset = editor.offsetOf(line, column);
    $('source').focus();
    $('source').setSelectionRange(offset, offset);
    editor.reveal(line);
    where();
  };

  // Enter keeps the indentation.
  function typed(event, changed) {
    if (event.key !== 'Enter' || event.ctrlKey || event.metaKey || event.shiftKey || event.isComposing) return;
    const source = $('source'), blanks = /^ */.exec(source.value.slice(0, source.selectionStart).split('\n').pop())[0];
    if (!blanks) return;
    event.preventDefault();
    source.setRangeText('\n' + blanks, source.selectionStart, source.selectionEnd, 'end');
    changed();
  }

  // Puts another text into the editor; `paint` shows it.
  editor.load = function (text) {
    $('source').value = text;
    $('source').setSelectionRange(0, 0);
    $('source').scrollTop = $('source').scrollLeft = 0;
    where();
  };

  // `changed` is called when the text has changed, and has it painted.
  editor.start = function (changed) {
    const begun = () => { where(); changed(); };
    $('source').addEventListener('input', begun);
    $('source').addEventListener('scroll', follow);
    $('source').addEventListener('keydown', event => typed(event, begun));
    for (const name of ['keyup', 'click', 'focus']) $('source').addEventListener(name, where);
  };
})(globalThis.pict = globalThis.pict || {});
