// Calls the proved module, which works in a worker: a long run leaves the page free, and can be cut off.

// The whole of the worker. A module that trapped is not called again.
function work() {
  // `secret` is where 16 secret bytes are, under which the module hashes names.
  let program, memory, secret;
  const reserve = (length) => {
    const at = program.room(BigInt(length));
    if (at === 0n) throw new Error("no memory");
    return Number(at);
  };
  const put = (bytes) => {
    const at = reserve(bytes.length);
    new Uint8Array(memory.buffer).set(bytes, at);
    return at;
  };
  // What a call puts into a room, which it is given together with its size. Where the room was too small it is called again.
  const filled = (call) => {
    for (let size = 1 << 16; ; ) {
      const room = reserve(size), length = Number(call(room, BigInt(size)));
      const bytes = length <= size && new Uint8Array(memory.buffer, room, length).slice();
      program.done(BigInt(room));
      if (bytes) return new TextDecoder("utf-8", { ignoreBOM: true }).decode(bytes);
      size = length;
    }
  };
  const run = ([text, input], bound) => {
    const places = [put(text), put(input), put(new Uint8Array(16))];
    const start = performance.now(), told = () => new BigUint64Array(memory.buffer, places[2], 2);
    const report = filled((room, size) => {
      program.kahn_web_run(secret, places[0], BigInt(text.length), places[1], BigInt(input.length), bound, room, size, places[2]);
      return told()[1];
    });
    const status = Number(told()[0]), milliseconds = performance.now() - start;
    places.forEach((it) => program.done(BigInt(it)));
    return { status, report, milliseconds, memory: memory.buffer.byteLength };
  };
  const made = (call, texts, ...numbers) => {
    const places = texts.map(put), words = texts.flatMap((it, i) => [places[i], BigInt(it.length)]);
    const text = filled((room, size) => call(secret, ...words, ...numbers, room, size));
    places.forEach((it) => program.done(BigInt(it)));
    return text;
  };
  const calls = {
    whole: (texts, { quantum, bound }) => made(program.kahn_web_whole, texts, BigInt(quantum), BigInt(bound)),
    run: (texts, { bound }) => run(texts, BigInt(bound)),
    draw: ([text]) => made(program.kahn_web_draw, [text]),
    explain: (texts, { bound }) => made(program.kahn_web_explain, texts, BigInt(bound)),
  };
  const bytesOf = (text) => new TextEncoder().encode(text);
  onmessage = async ({ data }) => {
    try {
      if (data.module) {
        program = (await WebAssembly.instantiate(data.module)).exports;
        memory = program.memory;
        secret = put(crypto.getRandomValues(new Uint8Array(16)));
        postMessage({ answer: "ready" });
      } else {
        postMessage({ answer: calls[data.call]([bytesOf(data.program), bytesOf(data.input)], data) });
      }
    } catch (error) {
      postMessage({ fault: error.message });
    }
  };
}

// What this browser lacks of what the module needs, in words.
export function lacking() {
  const wanted = { WebAssembly: "WebAssembly", Worker: "workers", DecompressionStream: "DecompressionStream" };
  return Object.entries(wanted).filter(([name]) => typeof globalThis[name] === "undefined").map(([, words]) => words);
}

let compiled;

// The module, which is compiled once for all workers.
function moduleOf(packed) {
  compiled ??= (async () => {
    const text = atob(packed), bytes = new Uint8Array(text.length);
    for (let i = 0; i < text.length; i++) bytes[i] = text.charCodeAt(i);
    const unpacked = new Response(new Blob([bytes]).stream().pipeThrough(new DecompressionStream("deflate-raw")));
    return WebAssembly.compile(await unpacked.arrayBuffer());
  })();
  return compiled;
}

const SECONDS_TO_START = 20;

// One worker and what is asked of it, one after the other; what is urgent comes first.
export class Runner {
  constructor(packed) {
    Object.assign(this, { packed, waiting: [], worker: undefined, started: undefined, current: undefined });
  }

  ask(call, values, isUrgent = false) {
    return new Promise((settle, refuse) => {
      this.waiting[isUrgent ? "unshift" : "push"]({ message: { call, ...values }, settle, refuse });
      this.next();
    });
  }

  async next() {
    if (this.current || !this.waiting.length) return;
    const asked = (this.current = this.waiting.shift());
    const started = (this.started ??= this.start());
    try {
      await started;
    } catch (error) {
      if (this.started === started) this.end(error.message);
      return;
    }
    if (this.current === asked) this.worker.postMessage(asked.message);
  }

  async start() {
    const place = URL.createObjectURL(new Blob([`(${work})()`])), worker = new Worker(place);
    this.worker = worker;
    await new Promise((settle, refuse) => {
      worker.onmessage = ({ data }) => (data.fault ? refuse(new Error(data.fault)) : settle());
      worker.onerror = ({ message }) => refuse(new Error(message || "The worker did not start"));
      setTimeout(() => refuse(new Error("The worker gave no sign")), 1000 * SECONDS_TO_START);
      moduleOf(this.packed).then((module) => worker.postMessage({ module }), refuse);
    });
    URL.revokeObjectURL(place);
    worker.onmessage = ({ data }) => this.told(data);
    worker.onerror = ({ message }) => this.end(message || "The worker ended");
  }

  told({ answer, fault }) {
    if (fault) {
      this.end(fault);
      return;
    }
    const asked = this.current;
    this.current = undefined;
    asked?.settle(answer);
    this.next();
  }

  // Ends the worker: all that was asked of it is refused, and the next call starts another one.
  end(fault) {
    this.worker?.terminate();
    const refused = [this.current, ...this.waiting];
    Object.assign(this, { worker: undefined, started: undefined, current: undefined, waiting: [] });
    refused.forEach((it) => it?.refuse(new Error(fault)));
  }
}
