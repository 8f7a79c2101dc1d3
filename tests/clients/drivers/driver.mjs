// Does with the client in JavaScript what each line of its input says, and prints what came of it. tests/clients/driving.py has what
// the lines say.

import { readFileSync } from "node:fs";
import { createInterface } from "node:readline";

import { Client, OfficeError, RefusedError, sessionDigest } from "../../../clients/javascript/src/index.js";

const keys = JSON.parse(process.argv[2]);
let client;
let session;

/** The value of a call, or why it has none. */
async function result(call) {
  try {
    return { value: (await call()) ?? null };
  } catch (error) {
    if (error instanceof TypeError) {
      return { reason: "invalid_request", may_be_done: false };
    }
    if (!(error instanceof OfficeError)) {
      throw error;
    }
    const shown = { reason: error.reason, may_be_done: error.mayBeDone };
    return error instanceof RefusedError
      ? { ...shown, refusal: { code: error.code, error: error.refusal, ...error.details } }
      : shown;
  }
}

/** A decision. */
function shown(decision) {
  return { allowed: decision.allowed, reason: decision.reason, code: decision.code };
}

/** Makes the client. */
function open({ addresses, token, timeout, pause, repeats, ca, certificate, key }) {
  const file = (path) => (path === undefined ? undefined : readFileSync(path));
  const milliseconds = (seconds) => (seconds === undefined ? undefined : seconds * 1000);
  try {
    client = new Client({
      addresses,
      token,
      timeout: milliseconds(timeout),
      pause: milliseconds(pause),
      repeats,
      ca: file(ca),
      certificate: file(certificate),
      key: file(key),
    });
  } catch (error) {
    return { refused: error.message };
  }
  return {};
}

const DOING = {
  open,
  call: (line) => result(() => client[line.function](...keys[line.function].map((key) => line.arguments[key]))),
  check: async ({ session, operation, object }) => shown(await client.check(session, operation, object)),
  decide: async ({ user, operation, object }) => shown(await client.decideByUser(user, operation, object)),
  login: ({ user, roles, renews }) =>
    result(async () => {
      session = await client.openSession(user, roles ?? undefined, { renews });
      return session.name;
    }),
  opened: () => ({
    roles: session.roles,
    left: session.left.map(({ role, code, error, ...details }) => [role, code, ...Object.values(details)]),
  }),
  end: ({ digest }) => result(() => client.endSession(digest ?? sessionDigest(session.name))),
  ask: async ({ operation, object }) => ({ ...shown(await session.check(operation, object)), name: session.name }),
  asks: async ({ operation, object, times }) => {
    const found = await Promise.all(Array.from({ length: times }, () => session.check(operation, object)));
    return { reasons: found.map((one) => one.reason) };
  },
  logout: () => result(() => session.close()),
  counts: () => Object.fromEntries(client.counts),
};

for await (const text of createInterface({ input: process.stdin, crlfDelay: Infinity })) {
  const line = JSON.parse(text);
  process.stdout.write(`${JSON.stringify(await DOING[line.do](line))}\n`);
}
process.exit(0);
