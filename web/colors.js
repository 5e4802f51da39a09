// The tokens of a text, by the table of docs/LANGUAGE.md, as spans of HTML.
'use strict';
(function (pict) {
  const WORDS = {
    keyword: 'and def import new rec run type val if then else',
    type: 'Bool Char Int String Top Type',
    number: 'true false',
    primitive: 'print printi pr div mod chr ord intstr size nth not',
  };
  const KINDS = new Map(Object.entries(WORDS).flatMap(([kind, words]) => words.split(' ').map(word => [word, kind])));
  const TOKEN = new RegExp([
    /[ \t\r\n]+/, /\{\*/, // blanks, the opening of a comment
    /"(?:[ !#-[\]-~]|\\.)*"?/, /'(?:[ -&(-[\]-~]|\\x[0-9A-Fa-f]{2}|\\.)'/, // literals
    /[A-Za-z][A-Za-z0-9_']*/, /-?[0-9]+/, /\?\*|->|\+\$|==|<<|<=|>>|>=/, /[^]/, // names, numbers, signs
  ].map(it => it.source).join('|'), 'y');

  // The words that have a kind of their own, by kinds.
  pict.WORDS = WORDS;

  // The end of the comment that begins here; the end of the text where it isn't closed.
  function commentEnd(text, from) {
    const mark = /\{\*|\*\}/g;
    mark.lastIndex = from;
    for (let depth = 0, found; (found = mark.exec(text));) {
      depth += found[0] === '{*' ? 1 : -1;
      if (depth === 0) return mark.lastIndex;
    }
    return text.length;
  }

  function kindOf(token) {
    if (token.startsWith('{*')) return 'comment';
    if (/^["']/.test(token) && token.length > 1) return 'string';
    if (/^-?[0-9]/.test(token)) return 'number';
    if (/^[A-Za-z]/.test(token)) return KINDS.get(token) || '';
    return /^[!?|]|^->/.test(token) ? 'sign' : '';
  }

  // Pieces [start, end, kind] that cover the text.
  pict.tokens = function (text) {
    const pieces = [];
    for (let at = 0; at < text.length;) {
      TOKEN.lastIndex = at;
      const token = TOKEN.exec(text)[0];
      const end = token === '{*' ? commentEnd(text, at) : at + token.length;
      pieces.push([at, end, kindOf(token)]);
      at = end;
    }
    return pieces;
  };

  pict.escape = function (text) {
    return text.replace(/[&<>"]/g, it => ({ '&': '&amp;', '<': '&lt;', '>': '&gt;', '"': '&quot;' })[it]);
  };

  // The text in colours. `marks` are pairs of an offset and a kind: the token that begins there is marked.
  pict.colored = function (text, marks) {
    const marked = new Map(marks || []);
    return pict.tokens(text).map(([start, end, kind]) => {
      const kinds = [kind, marked.get(start)].filter(Boolean).join(' ');
      const shown = pict.escape(text.slice(start, end));
      return kinds ? `<span class="${kinds}">${shown}</span>` : shown;
    }).join('');
  };
})(globalThis.pict = globalThis.pict || {});
