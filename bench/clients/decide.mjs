// Prints the median times of a decision in Node: by node:http, and by the client.

import { Agent, request } from "node:http";
import { Client } from "../../clients/javascript/src/index.js";

const { RBAC, SESSION } = process.env;
const WARM = 1_000;
const COUNT = 10_000;
const asked = { session: SESSION, operation: "open", object: "vault" };
const agent = new Agent({ keepAlive: true });
const office = new Client({ addresses: RBAC, timeout: 60_000 });

const byHand = () =>
  new Promise((resolve, reject) => {
    const body = JSON.stringify(asked);
    const headers = { "Content-Type": "application/json", "Content-Length": Buffer.byteLength(body) };
    const sent = request(`${RBAC}/v1/checkAccess`, { method: "POST", agent, headers, timeout: 60_000 }, (reply) => {
      const pieces = [];
      reply.on("data", (piece) => pieces.push(piece));
      reply.on("error", reject);
      reply.on("end", () =>
        resolve(reply.statusCode === 200 && Buffer.concat(pieces).toString() === '{"ok":true,"value":true}'),
      );
    });
    sent.on("error", reject);
    sent.end(body);
  });

const ways = [byHand, () => office.may(SESSION, "open", "vault")];
const times = ways.map(() => []);
for (let round = 0; round < WARM + COUNT; round += 1) {
  for (const [way, ask] of ways.entries()) {
    const start = performance.now();
    if (!(await ask())) {
      throw new Error("denied");
    }
    if (round >= WARM) {
      times[way].push((performance.now() - start) * 1000);
    }
  }
}
const medians = times.map((one) => one.sort((a, b) => a - b)[COUNT / 2].toFixed(1));
console.log(`Node, node:http ${medians.join(" ")}`);
process.exit(0);
