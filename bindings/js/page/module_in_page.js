// Where the page's modules of WebAssembly are: in the page, packed.

/** Returns the bytes of the module of a kind, `wasm32` or `wasm64`. */
export async function moduleBytes(kind) {
    const text = document.getElementById(kind).textContent.trim();
    const packed = Uint8Array.from(atob(text), (it) => it.charCodeAt(0));
    const stream = new Blob([packed]).stream().pipeThrough(new DecompressionStream("gzip"));
    return new Response(stream).arrayBuffer();
}
