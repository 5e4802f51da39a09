// The program's code behind one function, in a worker or in Node.
'use strict';
(function (pict) {
  pict.COMMANDS = ['run', 'trace', 'check', 'pick', 'picked', 'sites', 'code'];
  const OUT = 4 << 20, ERR = 4096, MEMORY = 7, SPENT = 3, CONFIGURATIONS = 20000;
  const NOTHING = { status: MEMORY, out: new Uint8Array(), err: new Uint8Array() };

  // A call takes a fresh memory, so that no call sees what another left. Addresses and lengths are numbers of 64 bits.
  async function opened(module) {
    const it = (await WebAssembly.instantiate(module, {})).exports;
    return {
      code: it,
      room: size => it.malloc(BigInt(Math.max(size, 1))),
      put: (at, bytes) => new Uint8Array(it.memory.buffer, Number(at), bytes.length).set(bytes),
      bytes: (at, size) => new Uint8Array(it.memory.buffer, Number(at), size).slice(),
      putNumbers: (at, numbers) => new BigUint64Array(it.memory.buffer, Number(at), numbers.length).set(numbers.map(BigInt)),
      numbers: at => [...new BigUint64Array(it.memory.buffer, Number(at), 2)].map(Number),
    };
  }

  // The program as the file main.pi, and the modules behind it, as one list of bytes, with how long each name and each text is.
  pict.joined = function (text, modules) {
    const encoded = it => new TextEncoder().encode(it), parts = [encoded('main.pi'), text];
    for (const [name, module] of Object.entries(modules)) parts.push(encoded(name), encoded(module));
    const bytes = new Uint8Array(parts.reduce((sum, it) => sum + it.length, 0));
    let at = 0;
    for (const it of parts) { bytes.set(it, at); at += it.length; }
    return [bytes, parts.map(it => it.length)];
  };

  // The status of a job's command over its text and its modules, what it prints and what it reports.
  pict.call = async function (module, { command, bare, fuel, seed = 0, sites = 1, text, modules = {} }) {
    const memory = await opened(module), [bytes, sizes] = pict.joined(text, modules);
    const rooms = [bytes.length, 8 * sizes.length, OUT, ERR, 16].map(memory.room), [at, cuts, out, err, lengths] = rooms;
    if (rooms.includes(0n)) return NOTHING;
    memory.put(at, bytes);
    memory.putNumbers(cuts, sizes);
    const status = memory.code.pict_web_call(pict.COMMANDS.indexOf(command), bare ? 1 : 0, BigInt(fuel), BigInt(seed), BigInt(sites),
      at, BigInt(bytes.length), cuts, BigInt(sizes.length / 2), out, BigInt(OUT), err, BigInt(ERR), lengths);
    const [printed, reported] = memory.numbers(lengths);
    return { status: status & 255, out: memory.bytes(out, printed), err: memory.bytes(err, reported) };
  };

  // What is told of a program beside what the command answers, by names: the module's call, and what it takes before the texts.
  const flag = is => is ? 1 : 0;
  const orders = what => ({ bare, most = CONFIGURATIONS, outcome = 0 }) =>
    ['pict_web_orders', what, flag(bare), BigInt(most), BigInt(outcome)];
  const TOLD = {
    steps: ({ bare }) => ['pict_web_steps', flag(bare)], reasons: ({ bare }) => ['pict_web_reasons', flag(bare)],
    outcomes: orders(0), way: orders(1), graph: orders(2),
  };

  // Whether the module has the call that tells this.
  pict.tells = (module, name) => WebAssembly.Module.exports(module).some(it => it.name === TOLD[name]({})[0]);

  // What is told of a job's text; status 1 where that is refused.
  pict.tell = async function (module, job) {
    const memory = await opened(module), [bytes, sizes] = pict.joined(job.text, job.modules || {});
    const rooms = [bytes.length, 8 * sizes.length, OUT, 16].map(memory.room), [at, cuts, out, lengths] = rooms;
    if (rooms.includes(0n)) return NOTHING;
    memory.put(at, bytes);
    memory.putNumbers(cuts, sizes);
    const [call, ...first] = TOLD[job.command](job);
    const status = memory.code[call](...first, at, BigInt(bytes.length), cuts, BigInt(sizes.length / 2), out, BigInt(OUT), lengths);
    return { status: status & 255, out: memory.bytes(out, memory.numbers(lengths)[0]), err: new Uint8Array() };
  };

  // Growing numbers of steps, so that what a run prints is seen while it goes on: what it prints with less fuel is a beginning
  // of what it prints with more.
  pict.fuels = function (fuel) {
    const all = [];
    for (let some = 20000n; some < BigInt(fuel); some *= 8n) all.push(some);
    return [...all, BigInt(fuel)];
  };

  // What a worker does with a job. Each answer says whether it is the last one. A trap of the module or a full stack is no
  // answer of the program.
  pict.work = async function (module, job, answer) {
    try {
      if (job.command in TOLD) {
        answer({ ...await pict.tell(module, job), last: true });
        return;
      }
      const prints = ['run', 'pick', 'sites'].includes(job.command), fuels = prints ? pict.fuels(job.fuel) : [BigInt(job.fuel)];
      for (const fuel of fuels) {
        const said = await pict.call(module, { ...job, fuel });
        const last = said.status !== SPENT || fuel === fuels[fuels.length - 1];
        answer({ ...said, last, fuel: String(fuel) });
        if (last) return;
      }
    } catch (error) {
      answer({ failed: String(error), last: true });
    }
  };
})(globalThis.pict = globalThis.pict || {});
