// A bank's pages, in JavaScript: whoever is logged in may open the vault or count what is in it, if the office says so.
// RBAC has the address of the office, RBAC_TOKEN this application's token, and RBAC_CA the file of the authority, if they are needed.

import { randomBytes } from "node:crypto";
import { readFileSync } from "node:fs";
import { createServer } from "node:http";
import { Client, guard } from "rbac-client";

const NEEDS = new Map([["/vault", ["open", "vault"]], ["/count", ["count", "vault"]]]);
const PASSWORDS = new Map([["ann", "apple"], ["erin", "elder"]]); // An application keeps digests of them.
const sessions = new Map(); // by the cookie

const { RBAC, RBAC_TOKEN, RBAC_CA, PORT = "0" } = process.env;
const office = new Client({ addresses: RBAC, token: RBAC_TOKEN, ca: RBAC_CA && readFileSync(RBAC_CA), timeout: 5_000 });

const cookie = (request) => /(?:^|; )login=(\w+)/.exec(request.headers.cookie ?? "")?.[1];

async function form(request) {
  let text = "";
  for await (const piece of request) {
    text = (text + piece).slice(0, 1_000);
  }
  return new URLSearchParams(text);
}

async function logIn(request, answer) {
  const given = await form(request);
  const user = given.get("user");
  if (!PASSWORDS.has(user) || PASSWORDS.get(user) !== given.get("password")) {
    return 401;
  }
  const name = randomBytes(16).toString("hex");
  sessions.set(name, await office.openSession(user));
  answer.setHeader("Set-Cookie", `login=${name}; HttpOnly; SameSite=Strict; Path=/`);
  return 200;
}

async function logOut(request) {
  const session = sessions.get(cookie(request));
  sessions.delete(cookie(request));
  await session?.close();
  return 200;
}

async function page(request, answer) {
  const doing = { "POST /login": logIn, "POST /logout": logOut }[`${request.method} ${request.url}`];
  answer.statusCode = doing ? await doing(request, answer) : NEEDS.has(request.url) ? 200 : 404;
  answer.end(`${request.url}\n`);
}

const guarded = guard(office, (request) => NEEDS.get(request.url), (request) => sessions.get(cookie(request))?.name);
const server = createServer((request, answer) => {
  guarded(request, answer, () => page(request, answer).catch(() => answer.writeHead(503).end()));
});
server.listen(Number(PORT), "127.0.0.1", () => console.log(`http://127.0.0.1:${server.address().port}`));
