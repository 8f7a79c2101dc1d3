// What no client may take for a permission, and what it says about it: clients/conformance/wrong_answers.json. `npm test`, or
// `node --test`.

import assert from "node:assert/strict";
import { after, before, test } from "node:test";
import { inspect } from "node:util";
import { Client, OfficeError, sessionDigest } from "../src/index.js";
import { RIGHT, Server, bytesOf, shared } from "../testing/fake.js";

const DATA = shared("wrong_answers.json");
const server = new Server();
before(() => server.listen());
after(() => server.close());

/** Counts what is one line of printable ASCII, not long, and has neither the token nor the session's name. */
function isHarmless(text) {
  assert.match(text, /^[ -~]{0,400}$/);
  hasNoSecret(text);
}

function hasNoSecret(text) {
  assert.ok(!text.includes(DATA.token) && !text.includes(DATA.session), text);
}

for (const { name, answer, reset, reason } of DATA.cases) {
  test(`${name} is ${reason}`, async () => {
    const lines = [];
    const office = new Client({ addresses: server.address, token: DATA.token, pause: 60_000, log: (line) => lines.push(line) });
    server.answer = reset ? null : bytesOf(answer, server.port);
    server.requests = [];
    const decision = await office.check(DATA.session, "open", "safe");
    assert.equal(decision.allowed, false);
    assert.equal(decision.reason, reason);
    assert.equal(server.requests.length, 1, "a client neither repeats nor follows it");
    assert.equal(lines.length, 1);
    [lines[0], decision.detail].forEach(isHarmless);
    hasNoSecret(inspect(decision));
    await assert.rejects(office.sessionRoles(DATA.session), (error) => {
      assert.ok(error instanceof OfficeError);
      isHarmless(error.message);
      hasNoSecret(inspect(error, { depth: 9 }) + error.stack);
      return true;
    });
    office.close();
  });
}

test("the right answer allows", async () => {
  const lines = [];
  const office = new Client({ addresses: server.address, token: DATA.token, pause: 60_000, log: (line) => lines.push(line) });
  server.answer = RIGHT;
  server.requests = [];
  assert.equal((await office.check(DATA.session, "open", "safe")).allowed, true);
  assert.deepEqual(lines, []);
  assert.ok(server.requests[0].includes(`Bearer ${DATA.token}\r\n`));
  office.close();
});

for (const { name, answer, reason, keeps } of shared("connections.json")) {
  test(`a connection after ${name} is ${keeps ? "kept" : "closed"}`, async () => {
    const office = new Client({ addresses: server.address, pause: 60_000, log: () => {} });
    server.keeps = true;
    server.connections = 0;
    server.answer = answer;
    assert.equal((await office.check("s1", "open", "safe")).reason, reason);
    server.answer = RIGHT;
    assert.equal(await office.may("s1", "open", "safe"), true);
    assert.equal(server.connections, keeps ? 1 : 2);
    office.close();
    server.keeps = false;
  });
}

test("the digest of a session is the beginning of SHA3-256", () => {
  assert.equal(sessionDigest("00112233445566778899aabbccddeeff"), "05079ffa5a3024b9424595e8940b640e");
});
