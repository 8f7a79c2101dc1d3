// How many lines there are about decisions that the office hasn't made: clients/conformance/log_lines.json.

import assert from "node:assert/strict";
import { test } from "node:test";
import { Client } from "../src/index.js";
import { LogLines } from "../src/log.js";
import { shared } from "../testing/fake.js";

for (const { name, steps } of shared("log_lines.json")) {
  test(name, () => {
    let now = 0;
    const lines = new LogLines(() => now);
    steps.forEach(([seconds, reason, leftOut], number) => {
      now = 1_000_000 + Math.round(seconds * 1_000);
      const end = leftOut ? ` (and ${leftOut} more since the last line)` : "";
      assert.equal(lines.due(reason), leftOut === null ? undefined : end, `step ${number}`);
    });
  });
}

test("a line is one of printable ASCII", async () => {
  const lines = [];
  const office = new Client({ addresses: "http://127.0.0.1:9", pause: 60_000, log: (line) => lines.push(line) });
  await office.check("s1", "open\n\u001b[31m\u2028\u0085", "safe".repeat(1_000));
  await office.check("s1", "open", "safe");
  assert.equal(lines.length, 1);
  assert.ok(lines[0].startsWith(`no decision about "open\\n\\u001b[31m\\u2028\\u0085" on "${"safe".repeat(20)}": unreachable: `), lines[0]);
  assert.match(lines[0], /^[ -~]*$/);
  assert.deepEqual(office.counts, new Map([["unreachable", 2]]));
});
