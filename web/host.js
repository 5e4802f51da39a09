// Where the program's code comes from, and how a worker is started: both stand in the page itself, so that it also works from
// a file.
'use strict';
(function (pict) {
  // A worker gets its module first, and then jobs.
  const LISTEN = `onmessage = ({ data }) => {
    if (data instanceof WebAssembly.Module) self.module = data;
    else pict.work(self.module, data, it => postMessage(it));
  };`;
  let address = null;

  pict.loadModule = async function () {
    const packed = pict.fromBase64(document.getElementById('module').textContent.trim());
    const bytes = await new Response(new Blob([packed]).stream().pipeThrough(new DecompressionStream('gzip'))).arrayBuffer();
    return WebAssembly.compile(bytes);
  };

  pict.startWorker = function (module) {
    const engine = document.getElementById('engine').textContent;
    address = address || URL.createObjectURL(new Blob([engine, LISTEN], { type: 'text/javascript' }));
    const worker = new Worker(address);
    worker.postMessage(module);
    return worker;
  };
})(globalThis.pict = globalThis.pict || {});
