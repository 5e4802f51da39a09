// The page: what its buttons, tabs and keys do.
'use strict';
(function (pict) {
  const GREATEST = 1000000000, DEFAULT = '1000000', REFUSED = 1, SPENT = 3, SEEDS = 18446744073709551616n, SITES = 64;
  const VIEWS = ['run', 'steps', 'chart', 'orders', 'trace', 'code', 'forms'];
  // What a view asks for, where that isn't its name.
  const ASKS = { chart: 'trace', orders: 'outcomes' };
  const ENDS = [
    'Done.', 'Refused.', 'The words have no listed shape.', 'The steps are spent; something is ready still.',
    'A division by zero.', 'A fault of reading.', 'What is written is longer than this page takes; its beginning is shown.',
    'Memory ran out.', 'No such file.',
    'Misshapen: a message has a wrong shape.', 'Rejected: this is no run of the program.',
  ];
  const $ = id => document.getElementById(id);
  const textOf = bytes => new TextDecoder().decode(bytes);
  const say = text => { $('status').textContent = text; };

  // The view that is shown, what was answered of the present text by commands, the place of its report and its mark in the
  // text, and who works.
  let view = 'run', answers = new Map(), place = null, faults = [], worker = null, busy = false, module = null;
  // Why there is no module.
  let without = 'The page is being loaded.';

  const bare = () => !$('prelude').checked;
  const fuel = () => {
    const text = $('fuel').value.trim();
    return /^(0|[1-9][0-9]{0,9})$/.test(text) && Number(text) <= GREATEST ? text : null;
  };
  // The number that chooses an order, '' for the oldest first, or null where it is no such number.
  const seed = () => {
    const text = $('seed').value.trim();
    return text === '' || (/^(0|[1-9][0-9]{0,19})$/.test(text) && BigInt(text) < SEEDS) ? text : null;
  };
  // The number of sites, '' for a run without, or null where it is no such number.
  const sites = () => {
    const text = $('sites').value.trim();
    return text === '' || (/^[1-9][0-9]?$/.test(text) && Number(text) <= SITES) ? text : null;
  };
  // A command, or the one that does the same on sites or in the order that is chosen.
  const ordered = command => {
    if (sites() && command === 'run') return 'sites';
    return seed() ? { run: 'pick', trace: 'picked' }[command] || command : command;
  };
  // What is told of a view that knows no other order than the oldest first.
  const oldest = command => {
    const other = sites() && command !== 'run' ? 'on sites' : seed() && command === 'steps' ? 'in this order' : '';
    return other && ['steps', 'trace'].includes(command) ? ` This isn\u2019t the run ${other}.` : '';
  };

  // ---- the program

  function working(is) {
    busy = is;
    $('stop').disabled = !is;
    if (is) $('panel').setAttribute('aria-busy', 'true'); else $('panel').removeAttribute('aria-busy');
  }

  // Ends what is under way, if something is.
  function cancel() {
    if (!busy) return false;
    worker.terminate();
    worker = null;
    working(false);
    return true;
  }

  const stop = () => cancel() && say('Stopped.');

  // Has the worker do a job with the present text, and hands each of its answers on.
  function work(job, then) {
    worker = worker || pict.startWorker(module);
    working(true);
    const fails = why => { cancel(); worker = null; working(false); say('The engine failed: ' + why); };
    worker.onerror = event => { event.preventDefault(); fails(event.message); };
    worker.onmessage = ({ data }) => {
      if (data.failed) { fails(data.failed); return; }
      if (data.last) working(false);
      then(data);
    };
    worker.postMessage({ ...job, bare: bare(), text: pict.editor.bytes, modules: pict.MODULES });
  }

  // Has a command done by the settings.
  function ask(command, then) {
    cancel();
    const fields = { fuel: fuel(), seed: seed(), sites: sites() }, wrong = Object.keys(fields).find(key => fields[key] === null);
    const wanted = { fuel: `Steps: a number from 0 to ${GREATEST}.`, seed: `Order: nothing, or a number from 0 to ${SEEDS - 1n}.`,
      sites: `Sites: nothing, or a number from 1 to ${SITES}.` };
    if (wrong) { say(wanted[wrong]); $(wrong).focus(); return; }
    if (!module) { say(without); return; }
    say('It runs; Escape stops it.');
    work({ command: ordered(command), fuel: fields.fuel, seed: fields.seed || '0', sites: fields.sites || '1' }, then);
  }

  // What a command of a view comes to, shown as it comes; and then, where that is told, why.
  function begin(command) {
    const begun = performance.now(), more = oldest(command);
    ask(command, said => {
      const took = `${Math.round(performance.now() - begun)} ms.`, refused = said.status === REFUSED;
      if (refused && ['steps', 'outcomes'].includes(command)) { begin('check'); return; }
      if (said.last) answers.set(command, said);
      report(said.status === SPENT ? '' : textOf(said.err));
      if (command === 'check' && said.status === 0) say(`Accepted. ${took}`);
      else say(said.last ? `${ENDS[said.status] || 'It failed.'} ${took}${more}` : `It runs; so far up to ${said.fuel} steps.`);
      if (command !== 'check') draw(said);
      if (said.last && (refused || (command === 'run' && said.status === 0 && !seed() && !sites()))) reasons();
    });
  }

  // Shows why the program is refused, or who waits at the end of its run.
  function reasons() {
    const shown = said => {
      if (said.status === REFUSED) explain(textOf(said.out));
      else if (view === 'run' && answers.has('run')) draw(answers.get('run'));
    };
    const known = answers.get('reasons');
    if (known) shown(known);
    else if (pict.tells(module, 'reasons')) work({ command: 'reasons' }, said => { answers.set('reasons', said); shown(said); });
  }

  // Asks for what else is told of all orders, and shows it.
  function further(what, outcome) {
    cancel();
    work({ command: what, outcome: outcome || 0 }, said => {
      if (view !== 'orders') return;
      if (said.status !== 0) say(ENDS[said.status]);
      else if (what === 'way') pict.orders.way(said, outcome);
      else pict.orders.graph(said);
    });
  }

  // ---- reports

  // Shows a report with its line, a caret and what is said of it elsewhere; nothing where it is empty.
  function report(text) {
    const found = /^(.*):([0-9]+):([0-9]+): ([^\n]*)\n$/.exec(text), heading = found ? found[4] : text.trim();
    $('refusal').hidden = text === '';
    place = found && found[1] === 'main.pi' ? { line: Number(found[2]), column: Number(found[3]) } : null;
    faults = [];
    if (text === '') return;
    const where = found ? `${place ? 'Line' : `${found[1]}, line`} ${found[2]}, column ${found[3]}: ` : '';
    $('report').textContent = where + heading;
    $('entry').innerHTML = pict.REFUSALS[heading] || '';
    $('goto').hidden = $('caret').hidden = !place;
    if (!place) return;
    const offset = pict.editor.offsetOf(place.line, place.column);
    $('caret').textContent = caret(pict.editor.lineAt(place.line), offset - pict.editor.offsetOf(place.line, 1));
    faults = [[offset, 'fault']];
    pict.editor.paint(faults);
    pict.editor.reveal(place.line);
  }

  // Shows, in the place of the line, what is told of a refusal: the line with a caret, what could stand there, and what may be meant.
  function explain(told) {
    if (told === '') return;
    $('caret').hidden = false;
    $('caret').textContent = told;
  }

  // A line, of which a part is shown where it is long, with a caret below.
  function caret(line, at) {
    const from = Math.max(0, at - 60);
    return `${line.slice(from, from + 120)}\n${line.slice(from, at).replace(/[^\t]/g, ' ')}^`;
  }

  // ---- the views

  function draw(said) {
    const why = answers.get('reasons'), ended = view === 'run' && said.last && said.status === 0 && why && why.status === 0;
    if (view === 'steps') pict.stepper.show(textOf(said.out));
    else if (view === 'chart') pict.views.chart(said, toStep);
    else if (view === 'orders' && said.status === 0) pict.orders.show(textOf(said.out), further);
    else pict.views.text(said, view, ended && !seed() && !sites() ? textOf(why.out) : '');
  }

  // Shows a step, if the module tells them.
  function toStep(number) {
    // (steps are told of the run in which the oldest acts first)
    if ($('tab-steps').hidden || seed()) return;
    show('steps');
    pict.stepper.goWhenTold(number);
  }

  // Shows a view: what was answered, or what is answered now.
  function show(name) {
    view = name;
    for (const key of VIEWS) {
      $('tab-' + key).setAttribute('aria-selected', String(key === name));
      $('tab-' + key).tabIndex = key === name ? 0 : -1;
    }
    $('panel').setAttribute('aria-labelledby', 'tab-' + name);
    $('panel').replaceChildren();
    pict.editor.paint(faults);
    if (name === 'forms') { pict.views.forms(text => load({ text, bare: true })); return; }
    const command = ASKS[name] || name, known = answers.get(command);
    if (known) draw(known); else begin(command);
  }

  function run() {
    answers.delete('run');
    show('run');
    if (matchMedia('(max-width: 780px)').matches) $('results').scrollIntoView();
  }

  // What was answered of another text, or of other settings, no longer holds.
  function changed() {
    cancel();
    pict.editor.paint([]);
    answers.clear();
    pict.stepper.forget();
    report('');
    if (view !== 'forms') $('panel').replaceChildren();
    say('Ctrl+Enter runs the program.');
  }

  // ---- programs

  function load(program) {
    pict.editor.load(program.text);
    $('prelude').checked = !program.bare;
    $('fuel').value = program.fuel || DEFAULT;
    $('seed').value = program.seed || '';
    $('sites').value = program.sites || '';
    changed();
  }

  async function share() {
    const settings = { bare: bare(), fuel: fuel() || DEFAULT, seed: seed() || '', sites: sites() || '' };
    const fragment = await pict.toFragment({ text: pict.editor.text, ...settings });
    history.replaceState(null, '', fragment);
    try {
      await navigator.clipboard.writeText(location.href);
      say(`The address of this program is copied; it has ${location.href.length} letters.`);
    } catch {
      say('The address bar holds the address of this program.');
    }
  }

  async function fromAddress() {
    const program = await pict.fromFragment(location.hash);
    if (program) load(program);
    return Boolean(program);
  }

  function menu() {
    const programs = new Map();
    for (const topic of pict.EXAMPLES) {
      const group = pict.views.make('optgroup', { label: topic.topic });
      for (const it of topic.programs) {
        group.append(pict.views.make('option', { value: it.name, textContent: `${it.name}: ${it.shows}` }));
        programs.set(it.name, it);
      }
      $('examples').append(group);
    }
    return programs;
  }

  // ---- keys

  // From one tab to the next, round and round.
  function toTab(by) {
    const tabs = VIEWS.filter(key => !$('tab-' + key).hidden);
    const next = tabs[(tabs.indexOf(view) + by + tabs.length) % tabs.length];
    show(next);
    $('tab-' + next).focus();
  }

  function keys(event) {
    const here = document.activeElement;
    if (event.key === 'Enter' && (event.ctrlKey || event.metaKey)) {
      event.preventDefault();
      if (event.shiftKey) begin('check'); else run();
    } else if (event.key === 'Escape') {
      stop();
    } else if (here && here.getAttribute('role') === 'tab' && ['ArrowLeft', 'ArrowRight'].includes(event.key)) {
      event.preventDefault();
      toTab(event.key === 'ArrowLeft' ? -1 : 1);
    } else if (view === 'steps' && here && here.id === 'panel' && pict.stepper.key(event.key)) {
      event.preventDefault();
    }
  }

  function theme() {
    const root = document.documentElement, system = matchMedia('(prefers-color-scheme: dark)').matches ? 'dark' : 'light';
    root.dataset.theme = (root.dataset.theme || system) === 'dark' ? 'light' : 'dark';
  }

  function about() {
    $('about').hidden = !$('about').hidden;
    $('about-link').setAttribute('aria-expanded', String(!$('about').hidden));
  }

  // ---- the beginning

  function listen(programs) {
    const on = (id, name, then) => $(id).addEventListener(name, then);
    // (what is edited is the example no longer)
    pict.editor.start(() => { $('examples').value = ''; changed(); });
    on('examples', 'change', () => {
      const program = programs.get($('examples').value);
      if (program) load(program);
    });
    on('run', 'click', run);
    on('check', 'click', () => begin('check'));
    on('stop', 'click', stop);
    on('share', 'click', share);
    on('theme', 'click', theme);
    for (const id of ['prelude', 'fuel', 'seed', 'sites']) on(id, 'change', changed);
    on('goto', 'click', () => place && pict.editor.goTo(place.line, place.column));
    on('about-link', 'click', about);
    for (const key of VIEWS) on('tab-' + key, 'click', () => show(key));
    document.addEventListener('keydown', keys);
    addEventListener('hashchange', fromAddress);
  }

  pict.start = async function () {
    const programs = menu();
    listen(programs);
    if (!(await fromAddress())) load(programs.get('hello.pi'));
    try {
      module = await pict.loadModule();
      $('tab-steps').hidden = !pict.tells(module, 'steps');
      $('tab-orders').hidden = !pict.tells(module, 'outcomes');
      say('Ready. Ctrl+Enter runs the program.');
      // (how long that took since the page was asked for)
      document.body.dataset.ready = Math.ceil(performance.now());
    } catch (error) {
      without = 'This browser can\u2019t run programs: ' + error.message;
      say(without);
    }
  };
})(globalThis.pict = globalThis.pict || {});
