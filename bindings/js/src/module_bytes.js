// Where the two modules of WebAssembly come from: files beside this folder. A page has its own.

/** Returns the bytes of the module of a kind, `wasm32` or `wasm64`. */
export async function moduleBytes(kind) {
    const place = new URL(`../galliumtoad.${kind}.wasm`, import.meta.url);
    if (place.protocol === "file:" && globalThis.process?.versions?.node) {
        const { readFile } = await import("node:fs/promises");
        return readFile(place);
    }
    const response = await fetch(place);
    if (!response.ok) throw new Error(`${place}: ${response.status}`);
    return response.arrayBuffer();
}
