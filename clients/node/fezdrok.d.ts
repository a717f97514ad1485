// Types of fezdrok.mjs. The forms are those of docs/FORMATS.md.

/** A segment of an edge, counted from 0 at its end `a`, and which way it is walked: `forward` is from `a` to `b`. */
export type Dart = [edge: number, segment: number, way: Way];
export type Way = "forward" | "back";
/** How an edge passes another one: from left to right of it, or from right to left. */
export type Sign = "ltr" | "rtl";

export interface Limits {
  /** From 2 to 65536. */
  vertices: number;
  /** How many edge ids are given, from 1 to 65536. */
  edges: number;
  /** How many crossing ids are given, from 0 to 1048576. */
  crossings: number;
}

export interface Picture {
  crossings: { crossed: number; id: number; newcomer: number; sign: Sign }[];
  edges: { a: number; b: number; crossings: number[]; id: number; kind: number }[];
  next_crossing: number;
  next_edge: number;
  /** For each vertex its edges, clockwise from the least id. */
  rotations: number[][];
}

/** Prices of the kinds 0, 1, .. from 1 to 1000, or `null` where such edges must not be crossed; others cost 1. */
export type Prices = (number | null)[];

export interface Opening {
  /** Without it two vertices and the edge 0 between them. */
  start?: Picture | "seed";
  limits?: Limits;
  prices?: Prices;
}

export type Refusal =
  | { refused: [1, "NoVertex"] }
  | { refused: [2, "SameEnds"] }
  | { refused: [3, "NoPosition"] }
  | { refused: [4, "NoEdge"] }
  | { refused: [5, "BadKind"] }
  /** The edge holds the picture together, by this segment. */
  | { refused: [6, "Cut", number] }
  | { refused: [7, "Full"] }
  | { refused: [9, "NoRoute"] };

export interface Grown {
  edge: number;
  vertex: number;
}

/** From the corner at the position `start` of u over the crossed darts to the corner at the position `end` of v. */
export interface Route {
  crossed: Dart[];
  end: number;
  /** The sum of the prices of what is crossed. */
  price: number;
  start: number;
}

export interface Inserted extends Route {
  edge: number;
}

export interface Deleted {
  deleted: number;
}

export type Command =
  | [name: "grow", u: number, position: number, kind: number]
  | [name: "insert", u: number, v: number, kind: number]
  | [name: "delete", edge: number];

export interface Report {
  history: { call: Command; caller: number; reply: Grown | Inserted | Deleted | Refusal }[];
  limits: Limits;
  picture: Picture;
  prices: Prices;
  start: Picture;
  version: 1 | 2;
}

export interface Graph {
  vertices: number;
  edges: [a: number, b: number, kind: number][];
  prices?: Prices;
  effort?: "quick" | "default" | "thorough";
  seed?: number;
  /** Pictures that the search begins with. */
  start?: Pictures;
  threads?: number;
}

export interface Pictures {
  cost: number;
  crossings: number;
  /** The vertices without an edge. */
  lonely: number[];
  /** A picture of each component, and which vertices and edges of the graph its own are. */
  parts: { edges: number[]; picture: Picture; vertices: number[] }[];
  tries: number[];
}

export interface Counts {
  crossings: number;
  edges: number;
  faces: number;
  segments: number;
  vertices: number;
}

export interface EdgeAnswer {
  a: number;
  b: number;
  /** From `a` to `b`: the crossing, the other edge, and how that one passes. */
  crossings: [crossing: number, edge: number, sign: Sign][];
  id: number;
  kind: number;
  /** What a later edge pays to cross it, or `null` where none may. */
  price: number | null;
}

export interface VertexAnswer {
  /** Clockwise from the least id. */
  edges: number[];
  /** For each edge which of its ends is at the vertex. */
  ends: ("a" | "b")[];
}

/** What comes next: what has one of these numbers, or a greater one, is gone. */
export interface Undone {
  crossings: number;
  edges: number;
  undone: number;
  vertices: number;
}

/** At place i the old id of what has the id i now. */
export interface Renumbered {
  crossings: number[];
  edges: number[];
}

export interface About {
  limits: Limits;
  program: string;
  requests: string[];
  version: string;
}

/** A request is at fault; nothing has changed. */
export class Fault extends Error {
  /** The number and the name of docs/FORMATS.md, as 54 and `BadNumber`. */
  readonly number: number;
  readonly fault: string;
  /** A path for 52 and 54, as `$/call/1`; the kind for 10, the entry for 60, the count for 70. */
  readonly value: string | number | undefined;
}

/** The program has ended, or could not be begun. */
export class Ended extends Error {
  readonly status: number | null;
  readonly signal: string | null;
}

/**
 * A picture in a process of `planar serve`. Calls are carried out in the order in which they are made; each rejects with a
 * Fault where it is at fault, and with an Ended where the program has ended.
 */
export class Session {
  /** A process without a picture: before other calls comes `open`, `reopen`, `planarize` or `about`. Without a path
   * the program is that of the variable FEZDROK_PLANAR, or else `planar` in PATH. */
  constructor(program?: string);
  /** A process that has begun with this picture, or with this report. */
  static begin(options?: Opening & { program?: string; report?: Report }): Promise<Session>;

  /** Puts another picture in place of this one, with a history of its own. */
  open(opening?: Opening): Promise<Counts>;
  /** Goes on from a report that is true, with its limits, prices and history. */
  reopen(report: Report): Promise<Counts>;
  /** Pictures of a graph with few crossings. The picture of the session stays; no other call is answered meanwhile. */
  planarize(graph: Graph): Promise<Pictures>;

  /** A new vertex on a new edge from the corner at this position of u; 0 is the end of its list of edges. */
  grow(u: number, position?: number, kind?: number): Promise<Grown | Refusal>;
  /** A new edge along the first of the cheapest routes. */
  insert(u: number, v: number, kind?: number): Promise<Inserted | Refusal>;
  delete(edge: number): Promise<Deleted | Refusal>;

  /** What an insertion would do now. */
  route(u: number, v: number): Promise<Route | Refusal>;
  edge(edge: number): Promise<EdgeAnswer | Refusal>;
  vertex(vertex: number): Promise<VertexAnswer | Refusal>;
  /** The darts once round the face on the left of this one. */
  face(edge: number, segment?: number, way?: Way): Promise<{ darts: Dart[] } | Refusal | { refused: [71, "NoDart"] }>;
  counts(): Promise<Counts>;
  picture(): Promise<Picture>;
  report(): Promise<Report>;
  about(): Promise<About>;

  /** Takes the last entries of the history back, refused ones too. */
  undo(entries?: number): Promise<Undone>;
  /** The picture now becomes the start, and the history is empty. */
  forget(): Promise<Counts>;
  /** As `forget`, and ids of edges and crossings are closed up from 0, in their order. */
  renumber(): Promise<Renumbered>;

  /** The answer to any request of docs/FORMATS.md. A command has this number, from 0 to 15, as its caller. */
  ask(request: unknown, caller?: number): Promise<any>;
  /** Ends the process when all calls so far are answered. */
  close(): Promise<void>;
  /** Ends the process at once; calls that are not answered yet reject with an Ended. */
  kill(): Promise<void>;
}
