// Tests the examples that README shows.
import assert from "node:assert/strict";
import { execFileSync } from "node:child_process";
import test from "node:test";
import { fileURLToPath } from "node:url";

/** The lines that an example prints. */
function printed(name) {
    const program = fileURLToPath(new URL(`../examples/${name}.js`, import.meta.url));
    const text = execFileSync(process.execPath, [...process.execArgv, program]);
    return text.toString().trim().split("\n");
}

test("a first card", () => {
    assert.deepEqual(printed("first"), ["normal processing 6F098407A0000000031010",
        "normal processing 5F20034A4F45"]);
});

test("a card of one's own", () => {
    assert.deepEqual(printed("counter"), ["10019000", "10029000"]);
});
