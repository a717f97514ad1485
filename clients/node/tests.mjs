// The tests of fezdrok.mjs: node tests.mjs PROGRAM [CALLS [SEED]].

import assert from "node:assert/strict";
import { readFileSync } from "node:fs";
import { Ended, Fault, Session } from "./fezdrok.mjs";
import { Mirror, twin } from "./mirror.mjs";

const [program, calls = 3000, first = 1] = process.argv.slice(2);
let seed = Number(first);

/** A whole number from 0 to below this one (mulberry32). */
function below(bound) {
  let it = (seed = (seed + 0x6d2b79f5) | 0);
  it = Math.imul(it ^ (it >>> 15), it | 1);
  it ^= it + Math.imul(it ^ (it >>> 7), it | 61);
  return ((it ^ (it >>> 14)) >>> 0) % bound;
}

/** A command whose numbers are mostly those of something that is there. With many edges most commands take one out. */
function command({ picture, vertices }) {
  const vertex = () => below(vertices + (below(20) === 0));
  const kind = below(30) ? below(3) : 64;
  const u = vertex();
  if (below(vertices < 9 ? 3 : 20) === 0)
    return ["grow", u, below((picture.rotations[u]?.length ?? 1) + (below(9) === 0)), kind];
  if (below(70) >= picture.edges.length) return ["insert", u, vertex(), kind];
  return ["delete", below(20) ? picture.edges[below(picture.edges.length)].id : below(picture.next_edge + 1)];
}

/** What there is, against the mirror: the counts, an edge, a vertex and a face, or all of it. */
async function look(session, mirror) {
  const { picture } = mirror;
  const row = picture.edges[below(picture.edges.length)];
  const [edge, vertex] = [row.id, below(mirror.vertices)];
  const dart = [edge, below(mirror.segments(edge)), below(2) ? "forward" : "back"];
  const met = row.crossings.map((id) => {
    const { crossed, newcomer, sign } = picture.crossings.find((it) => it.id === id);
    return crossed === edge ? [id, newcomer, sign] : [id, crossed, sign === "ltr" ? "rtl" : "ltr"];
  });
  const ends = picture.rotations[vertex].map((id) => (mirror.edgeRow(id).a === vertex ? "a" : "b"));
  const asked = [session.counts(), session.edge(edge), session.vertex(vertex), session.face(...dart), session.picture()];
  assert.deepEqual(await Promise.all(asked), [
    mirror.counts(),
    { ...row, crossings: met, price: mirror.price(edge) },
    { edges: picture.rotations[vertex], ends },
    { darts: mirror.faceOf(dart) },
    picture,
  ]);
  assert.deepEqual(await session.route(0, 0), { refused: [2, "SameEnds"] });
  assert.deepEqual(await session.face(edge, 99999), { refused: [71, "NoDart"] });
}

/** Random calls; each reply is as the mirror has it, but for routes, and so is all that there is then. */
async function walk(count) {
  const [prices, limits] = [[3, 1], { vertices: 40, edges: 300, crossings: 1048576 }];
  const session = await Session.begin({ program, prices, limits });
  let mirror = new Mirror(prices, limits);
  const seen = new Set();
  for (let call = 0; call < count; call++) {
    const history = below(14) ? -1 : below(40);
    const entries = mirror.history.length;
    if (history === 0) {
      const report = await session.report();
      const { start, picture } = mirror;
      assert.deepEqual(report, { history: mirror.history, limits, picture, prices: [3], start, version: 1 });
      assert.deepEqual(await session.reopen(report), mirror.counts());
    } else if (history === 1) {
      mirror.forget();
      assert.deepEqual(await session.forget(), mirror.counts());
    } else if (history === 2 || mirror.picture.next_edge >= limits.edges) {
      assert.deepEqual(await session.renumber(), mirror.renumber());
    } else if (history >= 3) {
      const undone = below(3) ? Math.min(below(5), entries) : below(Math.min(entries, 300) + 1);
      mirror.undo(undone);
      const { next_crossing: crossings, next_edge: edges } = mirror.picture;
      assert.deepEqual(await session.undo(undone), { crossings, edges, undone, vertices: mirror.vertices });
    } else {
      const made = command(mirror);
      const route = made[0] === "insert" ? await session.route(made[1], made[2]) : null;
      const reply = await session[made[0]](...made.slice(1));
      assert.deepEqual(reply, mirror.enter(made, reply), `call ${call}: ${made}`);
      if ("crossed" in reply) assert.deepEqual({ ...route, edge: reply.edge }, reply);
      seen.add(reply.refused?.[1] ?? made[0]);
    }
    if (below(8) === 0) await look(session, mirror);
  }
  assert.deepEqual(await session.picture(), mirror.picture);
  await session.close();
  const due = ["BadKind", "Cut", "NoEdge", "NoPosition", "NoVertex", "SameEnds", "delete", "grow", "insert"];
  if (count >= 3000) assert.deepEqual([...seen].filter((it) => it !== "Full").sort(), due);
}

/** Each method has its types. */
function types() {
  const declared = readFileSync(new URL("fezdrok.d.ts", import.meta.url), "utf8");
  for (const name of [...Object.getOwnPropertyNames(Session.prototype), "static begin"])
    assert.match(declared, new RegExp(`^  ${name}\\(`, "m"));
}

async function rejects(call, kind, message) {
  await assert.rejects(call, (error) => error instanceof kind && message.test(error.message));
}

async function faultsAndEnds() {
  const session = await Session.begin({ program });
  await rejects(session.insert(-1, 0), Fault, /^54 BadNumber \$\/call\/1$/);
  await rejects(session.undo(1), Fault, /^70 NothingToUndo 1$/);
  await rejects(session.open({ prices: [0] }), Fault, /^10 BadPrice 0$/);
  await rejects(session.ask(undefined), Fault, /^52 BadShape \$\/call$/);
  await rejects(session.reopen({ ...(await session.report()), history: 1 }), Fault, /^52 BadShape .*\/history$/);
  await rejects(session.planarize({ vertices: 2, edges: [[0, 1, 0], [1, 1, 0]] }), Fault, /^80 Loop 1$/);
  const graph = { vertices: 5, edges: [0, 1, 2, 3, 4].flatMap((a) => [1, 2].map((way) => [a, (a + way) % 5, 0])) };
  const pictures = await session.planarize(graph);
  assert.equal(pictures.crossings, 1);
  assert.deepEqual(await session.planarize({ ...graph, start: pictures }), pictures);
  const fault = await session.undo(7).catch((error) => error);
  assert.deepEqual([fault.number, fault.fault, fault.value], [70, "NothingToUndo", 7]);
  const { version } = await session.about();
  assert.equal(version, JSON.parse(readFileSync(new URL("package.json", import.meta.url))).version);

  const replies = await Promise.all(Array.from({ length: 20000 }, (_, i) => session.grow(0, 0, i % 2 ? 64 : 0)));
  assert.deepEqual(replies.slice(0, 3), [{ edge: 1, vertex: 2 }, { refused: [5, "BadKind"] }, { edge: 2, vertex: 3 }]);
  const report = await session.report();
  assert.equal(report.history.length, 20000);
  const last = session.counts();
  await session.close();
  assert.equal((await last).vertices, 10002);
  await rejects(session.counts(), Ended, /^the session is closed$/);

  const other = await Session.begin({ program, report });
  assert.equal((await other.undo(20000)).vertices, 2);
  await other.ask(["grow", 0, 0, 0], 15);
  assert.equal((await other.report()).history[0].caller, 15);
  await other.kill();
  await rejects(other.counts(), Ended, /./);
  await rejects(Session.begin({ program, limits: { crossings: 0, edges: 0, vertices: 0 } }), Fault, /^11 BadLimits$/);
  await rejects(Session.begin({ program: "/nowhere/planar" }), Ended, /cannot be run/);
  await rejects(Session.begin({ program: "false" }), Ended, /false has ended: 1/);
  await rejects(Session.begin({ program: "yes" }), Ended, /no answer in its form, but serve/);
}

types();
await walk(Number(calls));
await faultsAndEnds();
console.log(`node: ${calls} calls of a session are as the rules have them, and its faults and ends as they should be`);
