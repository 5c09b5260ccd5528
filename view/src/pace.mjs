/** Lets the page answer while something long goes on. */
export class Pace {
  constructor(progress) { Object.assign(this, { progress, last: performance.now() }); }
  get isDue() { return performance.now() - this.last > 60; }
  async rest(done) {
    this.progress(done);
    await new Promise(resolve => setTimeout(resolve));
    this.last = performance.now();
  }
}
