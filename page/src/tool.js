// The program ct_tool, as the page runs it: each time in a worker of its own, so that the page goes on meanwhile, and can end it.

import { held, run } from "../../bindings/node/system.js";
import { bytesOf, through } from "./link.js";

// The worker's script. It is given the program's module, its words, its standard input and the files that there are; it posts each text
// that comes on standard error, and in the end the status and all that was written.
const WORK = `${run}
${held}
onmessage = async ({ data: { module, ...given } }) => {
  try {
    const host = held(given, (told) => postMessage({ told }));
    const status = run(module, host);
    postMessage({ ended: { status, out: await host.written(1), err: await host.written(2) } });
  } catch (error) {
    postMessage({ failed: error.message });
  }
};`;

export class Tool {
  // The program of the module that is held so: compressed, in base 64.
  constructor(packed) {
    this.packed = packed;
  }

  // The module, which is made when it is first asked for.
  async module() {
    this.compiled ??= await WebAssembly.compile(await through(new DecompressionStream("gzip"), bytesOf(this.packed)));
    return this.compiled;
  }

  // Runs the program with these words, with this text as standard input, over these files, each a name and bytes: `ended` is its status and
  // what it wrote, or null where it was cancelled. `told` is given what comes on standard error, as it comes.
  run(words, { input = "", files = [] }, told = () => {}) {
    const given = { words: ["ct_tool", ...words], input, files };
    const address = URL.createObjectURL(new Blob([WORK], { type: "text/javascript" }));
    const worker = new Worker(address);
    let cancel = null;
    const ended = new Promise((done, failed) => {
      cancel = () => done(null);
      worker.onerror = (event) => failed(new Error(event.message ?? "no worker"));
      worker.onmessage = ({ data }) => {
        if (data.told !== undefined) told(data.told);
        else if (data.ended) done(data.ended);
        else failed(new Error(data.failed));
      };
      this.module().then((module) => worker.postMessage({ module, ...given }), failed);
    });
    const over = () => {
      worker.terminate();
      URL.revokeObjectURL(address);
    };
    ended.then(over, over);
    return { ended, cancel };
  }
}
