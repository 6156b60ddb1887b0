// The worker, and the answers that are awaited from it.
"use strict";

class Engine {
  constructor() { this.begin(); }

  begin() {
    const address = URL.createObjectURL(new Blob([$("bytes-js").textContent, "\n", $("worker-js").textContent], { type: "text/javascript" }));
    this.worker = new Worker(address);
    this.awaited = new Map();
    this.number = 0;
    this.worker.onmessage = ({ data }) => {
      const { take, refuse } = this.awaited.get(data.id) || {};
      this.awaited.delete(data.id);
      if (data.fault) refuse?.(new Error(data.fault)); else take?.(data.answer);
    };
    this.worker.onerror = event => { for (const { refuse } of this.awaited.values()) refuse(new Error(event.message || "the worker failed")); };
    this.ready = this.ask("init", { wasm: JSON.parse($("wasm").textContent) });
    this.ready.catch(() => {});
  }

  end() { this.worker.terminate(); }

  // Begins anew where the worker is still busy with what nobody wants any more.
  renew() {
    if (!this.awaited.size) return;
    this.end();
    this.begin();
  }

  ask(job, words = {}) {
    return new Promise((take, refuse) => {
      const id = this.number++;
      this.awaited.set(id, { take, refuse });
      this.worker.postMessage({ id, job, ...words });
    });
  }
}
