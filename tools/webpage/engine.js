// The worker from the page's side: runs are asked for and answered in turn, and all of them can be ended.
const noAnswer = (err) => ({ status: null, out: new Uint8Array(0), err });

class Engine {
  constructor(module, script) {
    this.module = module;
    this.script = URL.createObjectURL(new Blob([script], { type: "text/javascript" }));
    this.waiting = new Map();
    this.next = 0;
    this.start();
  }

  start() {
    this.worker = new Worker(this.script);
    this.worker.onmessage = ({ data }) => this.answered(data);
    this.worker.onerror = () => this.stop("the browser ended the program");
    this.worker.postMessage({ module: this.module });
  }

  answered(data) {
    const done = this.waiting.get(data.id);
    this.waiting.delete(data.id);
    done?.(data);
  }

  get isBusy() {
    return this.waiting.size > 0;
  }

  /** What the program answers to these words over these parts of an input: status, bytes of output, and its line. */
  run(words, parts) {
    const id = this.next++;
    return new Promise((resolve) => {
      this.waiting.set(id, resolve);
      try {
        this.worker.postMessage({ id, words, parts });
      } catch (fault) {
        this.answered({ id, ...noAnswer(`the browser took no such input: ${fault.message}`) });
      }
    });
  }

  /** Ends what is running; each run that was waited for is answered as stopped, and the next one begins anew. */
  stop(why = "stopped") {
    this.worker.terminate();
    const waiting = [...this.waiting.values()];
    this.waiting.clear();
    this.start();
    for (const done of waiting) done({ ...noAnswer(why), stopped: true });
  }
}

const engine = new Engine(asBytes(atob($("module").textContent)), $("worker").textContent);
