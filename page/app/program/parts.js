// What the page carries beside its script: the program, the text of its worker, and the examples.

/** The text of a part of the page. */
export function partOf(id) {
    return document.getElementById(id).textContent;
}

/** What a part holds that stands there packed, and in letters. */
function unpacked(id) {
    const bytes = Uint8Array.from(atob(partOf(id)), (letter) => letter.charCodeAt(0));
    return new Response(new Blob([bytes]).stream().pipeThrough(new DecompressionStream("gzip")));
}

/** The compiled program. */
export async function compiled() {
    return WebAssembly.compile(await unpacked("program").arrayBuffer());
}

/** The examples in their groups, each with its name and its text. */
export function documentsIn() {
    return unpacked("documents").json();
}
