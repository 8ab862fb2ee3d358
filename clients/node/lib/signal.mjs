// What several tasks wait for, each until it is woken or its time has passed.

export class Signal {
  constructor() {
    this._waiting = new Set();
  }

  /** Waits for `wake`, at most so many milliseconds. */
  wait(milliseconds = Infinity) {
    return new Promise((resolve) => {
      const timer = milliseconds === Infinity ? null : setTimeout(() => done(), milliseconds);
      const done = () => {
        clearTimeout(timer);
        this._waiting.delete(done);
        resolve();
      };
      this._waiting.add(done);
    });
  }

  /** Wakes all that wait. */
  wake() {
    for (const done of [...this._waiting]) done();
  }
}
