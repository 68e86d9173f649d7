// Runs of the program, one after another, in a worker that can be stopped.

export class Runner {
  constructor(source, moduleBytes) {
    this.source = URL.createObjectURL(new Blob([source], { type: "text/javascript" }));
    this.module = WebAssembly.compile(moduleBytes);
    this.worker = null;
    this.waiting = new Map();
    this.next = 0;
  }

  /** The worker, made where there is none. */
  async begun() {
    const module = await this.module;
    if (this.worker === null) {
      this.worker = new Worker(this.source);
      this.worker.onmessage = ({ data }) => this.ended(data);
      this.worker.onerror = (event) => this.failed(event.message || "the thread of the program ended");
      this.worker.onmessageerror = () => this.failed("what the program answered can't be read");
      this.worker.postMessage({ module });
    }
    return this.worker;
  }

  ended({ id, came, failure }) {
    const run = this.waiting.get(id);
    this.waiting.delete(id);
    if (!run) return;
    if (failure === undefined) run.resolve(came);
    else run.reject(new Error(failure));
  }

  /** Ends the worker, which can't answer any more. The next run gets another. */
  failed(message) {
    this.end(new Error(message));
  }

  /** What comes of the words on these files, which are pairs of a name and a text. */
  run(words, files) {
    const id = this.next++;
    return new Promise((resolve, reject) => {
      this.waiting.set(id, { resolve, reject });
      this.begun().then((worker) => {
        if (this.waiting.has(id)) worker.postMessage({ id, words, files });
      }).catch((error) => this.ended({ id, failure: error.message }));
    });
  }

  /** Ends all that runs. */
  stop() {
    if (this.waiting.size > 0) this.end(new Error("stopped"));
  }

  end(error) {
    if (this.worker !== null) this.worker.terminate();
    this.worker = null;
    for (const run of this.waiting.values()) run.reject(error);
    this.waiting.clear();
  }
}
