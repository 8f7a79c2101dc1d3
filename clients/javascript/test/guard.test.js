// A guard lets nobody in whom the office hasn't allowed, and never ends the process.

import assert from "node:assert/strict";
import { after, before, mock, test } from "node:test";
import { Client, Decision, guard, guardByUser } from "../src/index.js";
import { DENIED, RIGHT, Server } from "../testing/fake.js";

const server = new Server();
before(() => server.listen());
after(() => server.close());

const NEED = () => ["open", "safe"];
const SESSION = () => "s1";

/** What a guard does with a request: the status of its answer, "passed", or the error that it passes on. */
async function outcome(office, need = NEED, session = SESSION, next = undefined, makes = guard) {
  const found = { calls: [] };
  const answer = { setHeader() {}, end: (text) => Object.assign(found, { text }) };
  await makes(office, need, session)({ url: "/" }, answer, next ?? ((error) => found.calls.push(error ?? "passed")));
  assert.equal(found.calls.length + (found.text === undefined ? 0 : 1), next ? 1 : 1, "one outcome");
  return found.calls[0] ?? answer.statusCode;
}

test("what the office decides", async () => {
  const office = new Client({ addresses: server.address, pause: 60_000, log: () => {} });
  for (const [answer, wanted] of [[RIGHT, "passed"], [DENIED, 403], ["", 503]]) {
    server.answer = answer;
    assert.equal(await outcome(office), wanted);
    assert.equal(await outcome(office, async () => ["open", "safe"], async () => "s1"), wanted, "with promises");
  }
  server.answer = RIGHT;
  assert.equal(await outcome(office, NEED, () => undefined), 401);
  assert.equal(await outcome(office, NEED, async () => undefined), 401);
  assert.equal(await outcome(office, () => undefined), "passed");
});

test("what the office decides about a user", async () => {
  const office = new Client({ addresses: server.address, pause: 60_000, log: () => {} });
  for (const [answer, wanted] of [[RIGHT, "passed"], [DENIED, 403], ["", 503]]) {
    server.answer = answer;
    assert.equal(await outcome(office, NEED, async () => "ann", undefined, guardByUser), wanted);
    const [head, body] = server.requests.at(-1).split("\r\n\r\n");
    assert.ok(head.startsWith("POST /v1/decideByUser "));
    assert.equal(body, '{"user":"ann","operation":"open","object":"safe"}');
  }
  assert.equal(await outcome(office, NEED, () => undefined, undefined, guardByUser), 401);
});

test("a guard that is called wrongly says so at once", () => {
  const office = new Client({ addresses: server.address });
  const pair = ["open", "safe"];
  const wrong = [[office, pair, SESSION], [office, NEED, "s1"], [office, NEED], [undefined, NEED, SESSION], [{}, NEED, SESSION]];
  for (const given of wrong) {
    assert.throws(() => guard(...given), /^TypeError: a guard is guard\(office, need, session\)/);
    assert.throws(() => guardByUser(...given), /^TypeError: a guard is guardByUser\(office, need, user\)/);
  }
});

test("nothing but a decision that allows lets a request pass", async () => {
  for (const decision of [{ allowed: "yes" }, { allowed: 1 }, { allowed: Promise.resolve(true) }, { allowed: {} }, true, "allowed", []]) {
    assert.equal(await outcome({ check: () => decision }), 503);
    assert.equal(await outcome({ check: async () => decision }), 503);
  }
  assert.equal(await outcome({ check: async () => new Decision("allowed") }), "passed");
});

test("a need or a session that fails goes to `next`, and the request doesn't pass", async () => {
  const office = { check: async () => new Decision("allowed") };
  const broken = () => decodeURIComponent("/%E0%A4%A");
  for (const [need, session] of [
    [broken, SESSION],
    [NEED, broken],
    [async () => broken(), SESSION],
    [NEED, async () => broken()],
    [() => null, SESSION],
  ]) {
    assert.ok((await outcome(office, need, session)) instanceof Error);
    let calls = 0;
    const said = mock.method(console, "error", () => {});
    assert.equal(await outcome(office, need, session, () => (calls += 1)), 500, "a `next` that sees no errors");
    assert.equal(calls, 0);
    assert.equal(said.mock.callCount(), 1, "the error is shown");
    said.mock.restore();
  }
  const nothing = () => Promise.reject(undefined);
  assert.ok((await outcome(office, nothing)) instanceof Error, "an error that is nothing");
  assert.ok((await outcome({ check: () => Promise.reject(new RangeError("x")) })) instanceof RangeError);
});
