// The WebAssembly module of the verified core, which is unpacked and compiled once. Each key is an instance with its
// own memory.
import wasm from "../../../release/hidlog.wasm";
import { fromBase64 } from "./bytes.js";
import { unpack } from "./inflate.js";
import { compileModule } from "./platform.js";

/** The module's compressed bytes in base64, for the viewer. */
export const packedModule = wasm;

/** @type {WebAssembly.Module | null} */
let coreModule = null;

/**
 * Instantiates the core.
 * @returns {Record<string, any>} the exports of the instance
 */
export const instantiateCore = () => {
    coreModule ??= compileModule(unpack(fromBase64(packedModule)));
    return new WebAssembly.Instance(coreModule).exports;
};
