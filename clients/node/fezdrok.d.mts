// Where fezdrok.mjs is imported by its path, types are looked for here.
export * from "./fezdrok.js";
