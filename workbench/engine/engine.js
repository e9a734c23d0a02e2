// The page's side: calls of the module in a worker, with a limit of time, and a stop that leaves the page able to go on.
import { BadModule, NoWorker, Stopped, TimedOut, errorOf } from "./errors.js";
import { WARMING } from "./warm.js";

/**
 * @param {BufferSource} bytes The module.
 * @returns {Promise<WebAssembly.Module>}
 */
export async function compileModule(bytes) {
  try {
    return await WebAssembly.compile(bytes);
  } catch (error) {
    throw new BadModule(String(error.message));
  }
}

/** A call that was asked for, until it has its answer. */
class Job {
  constructor(request, isWarming = false) {
    this.request = request;
    this.isWarming = isWarming;
    this.answer = new Promise((resolve, reject) => Object.assign(this, { resolve, reject }));
  }

  get time() {
    return this.request.limits?.time ?? Infinity;
  }
}

export class Engine {
  /**
   * @param {WebAssembly.Module} compiled
   * @param {() => Worker} startWorker
   */
  constructor(compiled, startWorker) {
    this.compiled = compiled;
    this.startWorker = startWorker;
    this.waiting = [];
    this.current = null;
    this.worker = null;
    this.timer = 0;
  }

  /**
   * Makes a call after those that were asked for before.
   * @param {import("./request.js").Request} request
   * @returns {Promise<import("./call.js").Answer>}
   */
  call(request) {
    const job = new Job(request);
    this.waiting.push(job);
    this.next();
    return job.answer;
  }

  /** Makes small runs while nothing else waits. The promise resolves when they are made or have given way to a call. */
  async warm() {
    for (const request of WARMING) {
      if (this.current || this.waiting.length > 0) {
        return;
      }
      const job = new Job(request, true);
      this.waiting.push(job);
      this.next();
      await job.answer.catch(() => {});
    }
  }

  /** Ends the call under way, or the next one while a small run is under way. Calls that wait are made. */
  stop() {
    const stopped = new Stopped("the call was stopped");
    if (this.current?.isWarming) {
      this.waiting.shift()?.reject(stopped);
    } else if (this.current) {
      this.fail(stopped);
    }
  }

  /** Ends the worker, and every call. */
  close() {
    const jobs = this.waiting.splice(0);
    this.fail(new Stopped("the engine was closed"));
    jobs.forEach((job) => job.reject(new Stopped("the engine was closed")));
  }

  /** Begins the next call, if none is under way. */
  next() {
    if (this.current || this.waiting.length === 0) {
      return;
    }
    this.current = this.waiting.shift();
    try {
      this.worker ??= this.newWorker();
      this.worker.postMessage({ request: this.current.request });
    } catch (error) {
      this.fail(new NoWorker(String(error.message)));
      return;
    }
    const { time } = this.current;
    if (time < Infinity) {
      this.timer = setTimeout(() => this.fail(new TimedOut(`the call took longer than ${time} ms`)), time);
    }
  }

  newWorker() {
    const worker = this.startWorker();
    worker.onmessage = ({ data }) => this.finish(data);
    worker.onerror = (event) => this.fail(new NoWorker(event.message ?? "the worker failed"));
    worker.postMessage({ module: this.compiled });
    return worker;
  }

  finish({ answer, failure }) {
    const job = this.release();
    if (failure) {
      job?.reject(errorOf(failure));
    } else {
      job?.resolve(answer);
    }
    this.next();
  }

  /** Ends the worker with the call under way. The next call has a new worker. */
  fail(error) {
    this.worker?.terminate();
    this.worker = null;
    this.release()?.reject(error);
    this.next();
  }

  release() {
    const job = this.current;
    clearTimeout(this.timer);
    this.current = null;
    return job;
  }
}
