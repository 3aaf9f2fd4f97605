/** The page's requests to its worker, one after another. */

/** A request that the user stopped. */
export class Stopped extends Error {}

/** Why a request has no answer: a refusal, a file that can't be read, or a fault. The message has no full stop at its end, as some of a browser's have. */
export class Failed extends Error {
  constructor(answer) {
    super((answer.refused?.reason ?? answer.unreadable ?? answer.fault).replace(/\.+$/, ""));
    Object.assign(this, answer);
  }
}

/** The bytes of the module that is in the page, compressed. */
async function moduleOfPage() {
  const packed = atob(document.getElementById("module").textContent);
  const bytes = Uint8Array.from(packed, it => it.charCodeAt(0));
  const stream = new Blob([bytes]).stream().pipeThrough(new DecompressionStream("gzip"));
  return WebAssembly.compile(await new Response(stream).arrayBuffer());
}

export class Jobs {
  #program = URL.createObjectURL(new Blob([document.getElementById("worker").textContent], { type: "text/javascript" }));
  #module = moduleOfPage();
  #memory;
  #worker = null;
  #ready = null;
  #last = Promise.resolve();
  #waiting = null;
  #count = 0;
  #stops = 0;

  /** `memory` is the most that the module may take, in bytes. */
  constructor(memory) {
    this.#memory = memory;
  }

  /** Loads the library, if it isn't yet. */
  async load() {
    await this.#started();
  }

  /** The answer to a request, after those that were made before. Progress is reported in bytes of the file. */
  ask(act, words, onProgress) {
    const stops = this.#stops;
    const goOn = () => {
      if (stops !== this.#stops) {
        throw new Stopped();
      }
    };
    const answer = this.#last.then(async () => {
      goOn();
      await this.#started();
      goOn();
      return this.#asked(act, words, onProgress);
    });
    this.#last = answer.catch(() => {});
    return answer;
  }

  /** Ends the worker, whatever it does, and drops the requests. The next request starts another one. */
  stop() {
    this.#stops++;
    this.#end(new Stopped());
  }

  #end(why) {
    this.#worker?.terminate();
    this.#worker = this.#ready = null;
    this.#waiting?.reject(why);
    this.#waiting = null;
  }

  #started() {
    if (this.#ready === null) {
      const worker = new Worker(this.#program);
      worker.onmessage = ({ data }) => this.#answered(data);
      worker.onerror = event => this.#end(new Failed({ fault: event.message || "the worker failed" }));
      this.#worker = worker;
      this.#ready = this.#module.then(module => {
        if (worker !== this.#worker) {
          throw new Stopped();
        }
        return this.#asked("load", { module, memory: this.#memory });
      });
    }
    return this.#ready;
  }

  #asked(act, words, onProgress) {
    return new Promise((resolve, reject) => {
      this.#waiting = { id: ++this.#count, resolve, reject, onProgress };
      this.#worker.postMessage({ id: this.#count, act, ...words });
    });
  }

  #answered(answer) {
    const waiting = this.#waiting;
    if (waiting?.id !== answer.id) {
      return;
    }
    if (answer.progress !== undefined) {
      waiting.onProgress?.(answer.progress);
      return;
    }
    this.#waiting = null;
    if (answer.done !== undefined) {
      waiting.resolve(answer.done);
    } else {
      waiting.reject(new Failed(answer));
    }
  }
}
