/** The library for Node: golly_canon.mjs, but for `load`, which reads the module from a file, since Node fetches no files. */

import { readFile } from "node:fs/promises";
import { load as loadModule } from "./golly_canon.mjs";

export * from "./golly_canon.mjs";

/** Loads the library, from the golly_canon.wasm beside this file, or from what is given. */
export async function load(source = new URL("golly_canon.wasm", import.meta.url), options = {}) {
  const found = await source;
  return loadModule(String(found).startsWith("file:") ? readFile(new URL(found)) : found, options);
}
