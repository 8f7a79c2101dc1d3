// One exchange over HTTP/1.1 with one address.

import * as http from "node:http";
import * as https from "node:https";
import { isIP } from "node:net";
import { checkServerIdentity } from "node:tls";

import { LONGEST_ANSWER, readAnswer } from "./answers.js";
import { now } from "./course.js";
import { OfficeError, RefusedError } from "./decision.js";
import { inOneLine } from "./log.js";

const LONGEST_HEAD = 16_384;

// How an answer begins, and the name of a field: some versions of Node read more than these.
const START = /^HTTP\/1\.[01] \d{3} /;
const FIELD = /^[!#$%&'*+.^_`|~0-9A-Za-z-]+$/;

const HEAD_END = "\r\n\r\n";

// Statuses of answers without a body, whatever length they state.
const WITHOUT_BODY = [204, 304];

// The codes of errors of TLS begin with these.
const OF_TLS = /^(ERR_TLS|ERR_SSL|CERT|DEPTH_ZERO|SELF_SIGNED|UNABLE_TO|EPROTO|HOSTNAME|INVALID_CA|INVALID_PURPOSE|PATH_LENGTH)/;

/** Where a server listens. Questions go over connections that are kept, and commands over new ones. */
export class Address {
  /**
   * Reads `http://HOST:PORT`, `https://HOST:PORT` or `unix:PATH`.
   *
   * @param {string} text
   * @param {object} tls
   */
  constructor(text, tls) {
    const url = text.startsWith("unix:") && text.length > 5 ? undefined : urlOf(text);
    this.isTls = url?.protocol === "https:";
    // Whether nobody on the way can read what is sent: over TLS, or on this machine.
    this.hides = this.isTls || url === undefined || HERE.test(url.hostname);
    this.library = this.isTls ? https : http;
    const place = url
      ? { hostname: url.hostname.replace(/^\[|\]$/g, ""), port: Number(url.port) || (this.isTls ? 443 : 80) }
      : { socketPath: text.slice(5), hostname: "localhost" };
    this.options = { maxHeaderSize: LONGEST_HEAD, ...place, ...(this.isTls ? { ...tls, checkServerIdentity: judged } : {}) };
    this.agent = new this.library.Agent({ keepAlive: true, maxFreeSockets: 16 });
    this.agent.on("free", closesAtData);
  }

  /** Closes the connections that are kept. */
  close() {
    this.agent.destroy();
  }

  /**
   * Asks a question over a kept connection if there is one. If that was closed meanwhile, the question is asked once more.
   *
   * @param {string} name
   * @param {string} body
   * @param {Record<string, string>} headers
   * @param {number} limit
   */
  async ask(name, body, headers, limit) {
    const first = new Exchange(this, this.agent);
    try {
      return await first.run(name, body, headers, limit);
    } catch (error) {
      if (!(error instanceof OfficeError) || error.reason !== "unanswered" || !first.isReused || now() >= limit) {
        throw error;
      }
    }
    return this.command(name, body, headers, limit);
  }

  /**
   * Sends a command over a new connection.
   *
   * @param {string} name
   * @param {string} body
   * @param {Record<string, string>} headers
   * @param {number} limit
   */
  command(name, body, headers, limit) {
    return new Exchange(this, false).run(name, body, headers, limit);
  }
}

/**
 * Whether a certificate is for a host, as all clients want it: Node takes the name of the subject if there is no other.
 *
 * @param {string} host
 * @param {import("node:tls").Certificate} certificate
 */
function judged(host, certificate) {
  if (isIP(host) !== 0 || /(^|, )DNS:/.test(certificate.subjectaltname ?? "")) {
    return checkServerIdentity(host, certificate);
  }
  return Object.assign(new Error("the certificate has no name of a host"), { code: "ERR_TLS_CERT_ALTNAME_INVALID" });
}

/**
 * What comes on a connection that waits for a request closes it.
 *
 * @param {http.Socket} socket
 */
function closesAtData(socket) {
  const close = () => socket.destroy();
  socket.on("data", close);
  ON_DATA.set(socket, close);
}

/** @type {WeakMap<http.Socket, () => void>} */
const ON_DATA = new WeakMap();

// This machine. In the host of a URL letters are small, and an address has its usual form.
const HERE = /^(localhost|127\.\d+\.\d+\.\d+|\[::1\])$/;

// The text isn't shown: it may have a password.
const NO_ADDRESS = "this is no address such as https://localhost:8080 or unix:/run/rbac/office.sock";

/** @param {string} text */
function urlOf(text) {
  let url;
  try {
    url = new URL(text);
  } catch {
    throw new TypeError(NO_ADDRESS);
  }
  const isPlain = !url.username && !url.password && url.pathname === "/" && !url.search && !url.hash && url.hostname;
  if (!["http:", "https:"].includes(url.protocol) || !isPlain) {
    throw new TypeError(NO_ADDRESS);
  }
  return url;
}

class Exchange {
  /**
   * @param {Address} address
   * @param {http.Agent | false} agent
   */
  constructor(address, agent) {
    this.address = address;
    this.agent = agent;
    this.isConnected = false;
    this.isReused = false;
    this.isOver = false;
    this.head = "";
    this.size = 0;
    this.judge = (/** @type {Buffer} */ piece) => this.count(piece);
    /** @type {http.Socket | undefined} */
    this.socket = undefined;
  }

  /**
   * @param {string} name
   * @param {string} body
   * @param {Record<string, string>} headers
   * @param {number} limit
   * @returns {Promise<unknown>}
   */
  run(name, body, headers, limit) {
    return new Promise((resolve, reject) => {
      const [method, path] = name.includes(" ") ? name.split(" ") : ["POST", `/v1/${name}`];
      const options = { ...this.address.options, agent: this.agent, method, path, headers };
      const request = this.address.library.request(options);
      const timer = setTimeout(() => {
        this.isOver = true;
        request.destroy();
        reject(this.lost("no complete answer came in time"));
      }, Math.max(limit - now(), 0));
      request.on("socket", (socket) => this.connected(socket, request));
      request.on("error", (error) => reject(this.failure(error)));
      request.on("close", () => {
        clearTimeout(timer);
        this.socket?.off("data", this.judge);
        reject(this.lost("the connection was closed before the answer ended"));
      });
      request.on("response", (response) => this.receive(name, request, response, resolve, reject));
      request.end(body);
    });
  }

  /**
   * @param {http.Socket} socket
   * @param {http.ClientRequest} request
   */
  connected(socket, request) {
    this.socket = socket;
    socket.prependListener("data", this.judge);
    this.isReused = request.reusedSocket;
    const close = ON_DATA.get(socket);
    if (close) {
      socket.off("data", close);
    }
    if (!socket.connecting) {
      this.isConnected = true;
    } else {
      socket.once(this.address.isTls ? "secureConnect" : "connect", () => {
        this.isConnected = true;
      });
    }
  }

  /**
   * Keeps the head of the answer, and counts all that comes.
   *
   * @param {Buffer} piece
   */
  count(piece) {
    const end = this.head.indexOf(HEAD_END);
    this.head += end < 0 ? piece.toString("latin1") : "";
    this.size += piece.length;
  }

  /**
   * Reads an answer. It has to state the length of its body in exactly one way. The connection is kept only after an answer of the server.
   *
   * @param {string} name
   * @param {http.ClientRequest} request
   * @param {http.IncomingMessage} response
   * @param {(value: unknown) => void} resolve
   * @param {(error: unknown) => void} reject
   */
  receive(name, request, response, resolve, reject) {
    const names = response.rawHeaders.map((text, place) => (place % 2 === 0 ? text.toLowerCase() : ""));
    const lengths = names.flatMap((name, place) => (name === "content-length" ? [response.rawHeaders[place + 1] ?? ""] : []));
    const length = lengths.length === 1 && /^\d{1,9}$/.test(lengths[0] ?? "") ? Number(lengths[0]) : LONGEST_ANSWER + 1;
    const isHead = START.test(this.head) && names.every((name, place) => place % 2 === 1 || FIELD.test(name));
    if (!isHead || length > LONGEST_ANSWER || names.includes("transfer-encoding") || WITHOUT_BODY.includes(response.statusCode ?? 0)) {
      reject(new OfficeError("unexpected", "the answer has a wrong head, or doesn't state its length in one way, or is too long", true));
      request.destroy();
      return;
    }
    /** @type {Buffer[]} */
    const pieces = [];
    response.on("data", (piece) => pieces.push(piece));
    response.on("error", (error) => reject(this.failure(error)));
    response.on("end", () => {
      const body = pieces.length === 1 ? /** @type {Buffer} */ (pieces[0]) : Buffer.concat(pieces);
      if (!response.complete || body.length !== length) {
        reject(this.lost("the connection was closed before the answer ended"));
        return;
      }
      if (this.size !== this.head.indexOf(HEAD_END) + HEAD_END.length + length) {
        this.socket?.destroy();
        reject(new OfficeError("unexpected", "there is more than an answer", true));
        return;
      }
      try {
        resolve(readAnswer(name, response.statusCode ?? 0, body));
      } catch (error) {
        if (!(error instanceof RefusedError)) {
          this.socket?.destroy();
        }
        reject(error);
      }
    });
  }

  /**
   * The error of an exchange without an answer.
   *
   * @param {http.Failure} error
   */
  failure(error) {
    const code = error.code ?? "";
    const message = inOneLine(error.message);
    if (this.isConnected) {
      return code.startsWith("HPE_") ? new OfficeError("unexpected", `no answer of rbac: ${code}`, true) : this.lost(message);
    }
    return OF_TLS.test(code) ? new OfficeError("untrusted", message, false) : this.lost(message);
  }

  /**
   * The error if the connection was lost, or was never made: then nothing was sent.
   *
   * @param {string} message
   */
  lost(message) {
    return this.isConnected ? new OfficeError("unanswered", message, true) : new OfficeError("unreachable", message, false);
  }
}
