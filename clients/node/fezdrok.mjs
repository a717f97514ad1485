// A session with the program planar from Node.js: a picture in a process of its own, changed by one call after another.
//
//     import { Session } from "./fezdrok.mjs";
//     const session = await Session.begin();
//     const { vertex } = await session.grow(1);
//     const reply = await session.insert(0, vertex);
//     if ("refused" in reply) console.log(`refused: ${reply.refused[1]}`);
//     await session.close();
//
// A call gives a promise of its answer, which is an object as docs/FORMATS.md has it. Calls are carried out in the order in
// which they are made, and need not wait for each other. A refusal, as {"refused":[7,"Full"]}, is an answer, since it
// stands in the history as other replies do. A request that is at fault changes nothing, and rejects with a Fault. Where
// the program has ended, calls reject with an Ended.

import { spawn } from "node:child_process";

/** A request is at fault, as `54 BadNumber $/1`; nothing has changed. */
export class Fault extends Error {
  constructor(words) {
    super(words.join(" "));
    this.name = "Fault";
    [this.number, this.fault, this.value] = words;
  }
}

/** The program has ended, could not be begun, or answered in no known form. */
export class Ended extends Error {
  constructor(text, status = null, signal = null) {
    super(text);
    this.name = "Ended";
    this.status = status;
    this.signal = signal;
  }
}

const LINE_FEED = 10;

export class Session {
  #process;
  #waiting = new Map(); // by the ids of their requests, what is to be done with the answers
  #next = 0; // the id of the next request
  #begun = []; // the parts of an answer whose end was not read yet
  #told = ""; // what the program wrote on standard error
  #end = null; // why no more requests are taken
  #gone; // a promise of the end of the process

  /** A process without a picture: before other calls comes `open`, `reopen`, `planarize` or `about`. */
  constructor(program = process.env.FEZDROK_PLANAR ?? "planar") {
    this.#process = spawn(program, ["serve"]);
    const { stdin, stdout, stderr } = this.#process;
    stdin.on("error", () => {}); // the program has ended, which `close` tells
    stdout.on("data", (part) => this.#read(part));
    stderr.on("data", (part) => (this.#told = (this.#told + part).slice(-10000)));
    this.#gone = new Promise((gone) => {
      const end = (...words) => gone(this.#stop(new Ended(...words)));
      this.#process.on("error", (error) => end(`${program} cannot be run: ${error.message}`));
      this.#process.on("close", (status, signal) =>
        end(this.#told.trim() || `${program} has ended: ${signal ?? status}`, status, signal),
      );
    });
  }

  /** A process that has begun with this picture, or with this report. */
  static async begin({ program, report, ...opening } = {}) {
    const session = new Session(program);
    try {
      await (report === undefined ? session.open(opening) : session.reopen(report));
    } catch (error) {
      await session.close();
      throw error;
    }
    return session;
  }

  open({ start, limits, prices } = {}) {
    return this.ask({ open: { version: 2, start, limits, prices } });
  }

  reopen(report) {
    return this.ask({ reopen: report });
  }

  planarize(graph) {
    return this.ask({ planarize: { version: 2, ...graph } });
  }

  grow(u, position = 0, kind = 0) {
    return this.ask(["grow", u, position, kind]);
  }

  insert(u, v, kind = 0) {
    return this.ask(["insert", u, v, kind]);
  }

  delete(edge) {
    return this.ask(["delete", edge]);
  }

  route(u, v) {
    return this.ask(["route", u, v]);
  }

  edge(edge) {
    return this.ask(["edge", edge]);
  }

  vertex(vertex) {
    return this.ask(["vertex", vertex]);
  }

  face(edge, segment = 0, way = "forward") {
    return this.ask(["face", edge, segment, way]);
  }

  counts() {
    return this.ask("counts");
  }

  picture() {
    return this.ask("picture");
  }

  report() {
    return this.ask("report");
  }

  about() {
    return this.ask("about");
  }

  undo(entries = 1) {
    return this.ask(["undo", entries]);
  }

  forget() {
    return this.ask("forget");
  }

  renumber() {
    return this.ask("renumber");
  }

  /** The answer to any request. A command stands in the history with this number, from 0 to 15, as its caller. */
  ask(request, caller = 0) {
    return new Promise((resolve, reject) => {
      if (this.#end) throw this.#end;
      const id = this.#next++;
      this.#process.stdin.write(`${JSON.stringify({ call: request ?? null, caller, id })}\n`);
      this.#waiting.set(id, { resolve, reject });
    });
  }

  /** Ends the process when all calls so far are answered. */
  async close() {
    this.#end ??= new Ended("the session is closed");
    this.#process.stdin.end();
    await this.#gone;
  }

  /** Ends the process at once; calls that are not answered yet reject with an Ended. */
  async kill() {
    this.#process.kill("SIGKILL");
    await this.close();
  }

  #read(part) {
    for (let at; (at = part.indexOf(LINE_FEED)) >= 0; part = part.subarray(at + 1)) {
      const line = Buffer.concat([...this.#begun, part.subarray(0, at)]);
      this.#begun = [];
      this.#answer(line.toString());
    }
    if (part.length) this.#begun.push(part);
  }

  /** Hands an answer on to whom its id names: one without, as to a line that was too long, to whom waits longest. */
  #answer(line) {
    try {
      const value = JSON.parse(line);
      const { answer = value, id = this.#waiting.keys().next().value } = value;
      const { resolve, reject } = this.#waiting.get(id);
      this.#waiting.delete(id);
      if ("fault" in answer) reject(new Fault(answer.fault));
      else resolve(answer);
    } catch {
      this.#stop(new Ended(`no answer in its form, but ${line.slice(0, 200)}`));
      this.#process.kill("SIGKILL");
    }
  }

  #stop(end) {
    this.#end ??= end;
    for (const { reject } of this.#waiting.values()) reject(end);
    this.#waiting.clear();
  }
}
