// Why a call of the module has no answer. Each error is named for its cause.

/** An error whose name is that of its class, also after it crossed from a worker. */
class NamedError extends Error {
  constructor(message) {
    super(message);
    this.name = this.constructor.name;
  }
}

/** There is no memory for the call. */
export class OutOfMemory extends NamedError {}

/** What is given is no call: a word or a file's name is no text in UTF-8, or there is no such program. */
export class NotACall extends NamedError {}

/** The files that were written are more, or longer, than the limits allow. */
export class NoRoom extends NamedError {}

/** The module broke off. The next call runs in a new instance. */
export class Trapped extends NamedError {}

/** The call was stopped. */
export class Stopped extends NamedError {}

/** The call took longer than its limit of time. */
export class TimedOut extends NamedError {}

/** The bytes are no module, or one without the function that is called. */
export class BadModule extends NamedError {}

/** The worker could not be started. */
export class NoWorker extends NamedError {}

const BY_NAME = { OutOfMemory, NotACall, NoRoom, Trapped, Stopped, TimedOut, BadModule, NoWorker };

/**
 * The error of this name, as a message from a worker carries it.
 * @param {{ name: string, message: string }} failure
 * @returns {Error}
 */
export function errorOf({ name, message }) {
  const Named = Object.hasOwn(BY_NAME, name) ? BY_NAME[name] : Trapped;
  return new Named(message);
}
