// A picture by the rules of docs/MODEL.md, for the tests: all but the search for routes. A route is taken from the answer to
// an insertion, which is judged, and shown.

import assert from "node:assert/strict";

const refused = (...words) => ({ refused: words });
export const SEED = {
  crossings: [],
  edges: [{ a: 0, b: 1, crossings: [], id: 0, kind: 0 }],
  next_crossing: 0,
  next_edge: 1,
  rotations: [[0], [0]],
};

/** Without an entry; the list begins again at its least id. */
function without(around, edge) {
  const left = around.filter((it) => it !== edge);
  const at = left.indexOf(Math.min(...left));
  return [...left.slice(at), ...left.slice(0, at)];
}

/** With an edge in the corner at a position, of which 0 is the end of the list. */
function putIn(around, position, edge) {
  const at = position || around.length;
  return [...around.slice(0, at), edge, ...around.slice(at)];
}

export class Mirror {
  constructor(prices, limits, picture = SEED) {
    Object.assign(this, { prices, limits, start: structuredClone(picture), picture: structuredClone(picture) });
    this.history = [];
    this.before = []; // the picture before each entry of the history
  }

  // ---- Rows

  edgeRow(id) {
    return this.picture.edges.find((row) => row.id === id);
  }

  segments(id) {
    return this.edgeRow(id).crossings.length + 1;
  }

  price(id) {
    return this.prices[this.edgeRow(id).kind] ?? 1;
  }

  get vertices() {
    return this.picture.rotations.length;
  }

  // ---- Darts, as [edge, segment, way], and faces

  /** The points on an edge: a vertex by its number, a crossing as `x` and its id. */
  path(id) {
    const { a, b, crossings } = this.edgeRow(id);
    return [a, ...crossings.map((it) => `x${it}`), b];
  }

  aroundVertex(vertex) {
    return this.picture.rotations[vertex].map((id) =>
      this.edgeRow(id).a === vertex ? [id, 0, "forward"] : [id, this.segments(id) - 1, "back"],
    );
  }

  aroundCrossing({ id, crossed, newcomer, sign }) {
    const [old, late] = [crossed, newcomer].map((edge) => this.edgeRow(edge).crossings.indexOf(id));
    const [on, back] = [[newcomer, late + 1, "forward"], [newcomer, late, "back"]];
    const [first, second] = sign === "ltr" ? [on, back] : [back, on];
    return [[crossed, old + 1, "forward"], first, [crossed, old, "back"], second];
  }

  /** The next dart clockwise at the start of each dart. */
  turns() {
    const next = new Map();
    const points = this.picture.rotations.map((_, vertex) => this.aroundVertex(vertex));
    for (const around of [...points, ...this.picture.crossings.map((row) => this.aroundCrossing(row))])
      around.forEach((dart, at) => next.set(String(dart), around[(at + 1) % around.length]));
    return next;
  }

  /** The darts once round the face on the left of this one. */
  faceOf(dart, turns = this.turns()) {
    const darts = [];
    for (let at = dart; !darts.length || String(at) !== String(dart); at = turns.get(String(twin(at)))) darts.push(at);
    return darts;
  }

  counts() {
    const { edges, crossings } = this.picture;
    const segments = edges.reduce((sum, row) => sum + row.crossings.length + 1, 0);
    const turns = this.turns();
    const seen = new Set();
    let faces = 0;
    for (const dart of turns.values()) {
      if (seen.has(String(dart))) continue;
      for (const it of this.faceOf(dart, turns)) seen.add(String(it));
      faces++;
    }
    return { crossings: crossings.length, edges: edges.length, faces, segments, vertices: this.vertices };
  }

  /** Whether all points hang together without the first segments of an edge. */
  isConnected(opened, count) {
    const parts = new Map([...this.picture.rotations.keys()].map((vertex) => [vertex, vertex]));
    for (const { id } of this.picture.crossings) parts.set(`x${id}`, `x${id}`);
    const part = (point) => {
      while (parts.get(point) !== point) point = parts.get(point);
      return point;
    };
    for (const { id } of this.picture.edges)
      this.path(id).forEach((point, at, path) => {
        if (at && !(id === opened && at <= count)) parts.set(part(path[at - 1]), part(point));
      });
    return new Set([...parts.keys()].map(part)).size === 1;
  }

  // ---- Commands: what is answered, and what becomes of the picture

  grow(u, position, kind) {
    const { picture, limits, vertices } = this;
    if (u >= vertices) return refused(1, "NoVertex");
    if (position >= picture.rotations[u].length) return refused(3, "NoPosition");
    if (kind > 63) return refused(5, "BadKind");
    if (vertices >= limits.vertices || picture.next_edge >= limits.edges) return refused(7, "Full");
    const edge = picture.next_edge++;
    picture.rotations[u] = putIn(picture.rotations[u], position, edge);
    picture.rotations.push([edge]);
    picture.edges.push({ a: u, b: vertices, crossings: [], id: edge, kind });
    return { edge, vertex: vertices };
  }

  /** The route of an insertion is that of its answer. */
  insert(u, v, kind, answer) {
    const { picture, limits, vertices } = this;
    if (u >= vertices || v >= vertices) return refused(1, "NoVertex");
    if (u === v) return refused(2, "SameEnds");
    if (kind > 63) return refused(5, "BadKind");
    if (picture.next_edge >= limits.edges) return refused(7, "Full");
    this.judge(u, v, answer);
    const [edge, first] = [picture.next_edge++, picture.next_crossing];
    picture.next_crossing += answer.crossed.length;
    for (const row of picture.edges) {
      const path = row.crossings;
      row.crossings = [];
      for (let at = 0; at <= path.length; at++) {
        answer.crossed.forEach(([id, segment], i) => id === row.id && segment === at && row.crossings.push(first + i));
        row.crossings.push(...path.slice(at, at + 1));
      }
    }
    picture.rotations[u] = putIn(picture.rotations[u], answer.start, edge);
    picture.rotations[v] = putIn(picture.rotations[v], answer.end, edge);
    picture.edges.push({ a: u, b: v, crossings: answer.crossed.map((_, i) => first + i), id: edge, kind });
    answer.crossed.forEach(([crossed, , way], i) =>
      picture.crossings.push({ crossed, id: first + i, newcomer: edge, sign: way === "forward" ? "ltr" : "rtl" }),
    );
    return { ...answer, edge };
  }

  /** Each crossed dart has to lie in the face that was reached, the last face has to be that of the corner at v, and the
   * price has to be the sum of the prices. */
  judge(u, v, { crossed, start, end, price }) {
    const turns = this.turns();
    let at = this.aroundVertex(u)[start];
    for (const dart of crossed) {
      assert(this.faceOf(at, turns).some((it) => String(it) === String(dart)), `${dart} is not in the face`);
      at = twin(dart);
    }
    assert(this.faceOf(at, turns).some((it) => String(it) === String(this.aroundVertex(v)[end])), "no corner of v");
    assert.equal(price, crossed.reduce((sum, [id]) => sum + this.price(id), 0));
  }

  delete(edge) {
    const { picture } = this;
    const row = this.edgeRow(edge);
    if (!row) return refused(4, "NoEdge");
    const whole = structuredClone(picture);
    picture.edges = picture.edges.filter(({ id }) => id !== edge);
    picture.crossings = picture.crossings.filter(({ id }) => !row.crossings.includes(id));
    for (const it of picture.edges) it.crossings = it.crossings.filter((id) => !row.crossings.includes(id));
    for (const end of [row.a, row.b]) picture.rotations[end] = without(picture.rotations[end], edge);
    if (this.isConnected()) return { deleted: edge };
    this.picture = whole;
    for (let count = 1; ; count++) if (!this.isConnected(edge, count)) return refused(6, "Cut", count - 1);
  }

  enter(call, answer) {
    this.before.push(structuredClone(this.picture));
    const reply = this[call[0]](...call.slice(1), answer);
    this.history.push({ call, caller: 0, reply });
    return reply;
  }

  // ---- The history

  undo(count) {
    this.history.length -= count;
    for (; count; count--) this.picture = this.before.pop();
  }

  forget() {
    this.start = structuredClone(this.picture);
    this.history = [];
    this.before = [];
  }

  renumber() {
    const { picture } = this;
    const [edges, crossings] = [picture.edges, picture.crossings].map((rows) => rows.map(({ id }) => id));
    picture.rotations = picture.rotations.map((around) => around.map((id) => edges.indexOf(id)));
    picture.edges.forEach((row, id) =>
      Object.assign(row, { id, crossings: row.crossings.map((it) => crossings.indexOf(it)) }),
    );
    picture.crossings.forEach((row, id) =>
      Object.assign(row, { id, crossed: edges.indexOf(row.crossed), newcomer: edges.indexOf(row.newcomer) }),
    );
    Object.assign(picture, { next_edge: edges.length, next_crossing: crossings.length });
    this.forget();
    return { crossings, edges };
  }
}

export function twin([edge, segment, way]) {
  return [edge, segment, way === "forward" ? "back" : "forward"];
}
