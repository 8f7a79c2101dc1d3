// A server that sends one answer after each request, and the data that the tests of all clients share.

import { once } from "node:events";
import { readFileSync } from "node:fs";
import { createServer } from "node:net";

export const RIGHT = 'HTTP/1.1 200 OK\r\nContent-Length: 24\r\n\r\n{"ok":true,"value":true}';
export const DENIED = 'HTTP/1.1 200 OK\r\nContent-Length: 25\r\n\r\n{"ok":true,"value":false}';

/** A file of clients/conformance. */
export const shared = (name) => JSON.parse(readFileSync(new URL(`../../conformance/${name}`, import.meta.url)));

/** An answer as wrong_answers.json has it: texts, in which each character is a byte, or how often one comes. */
export function bytesOf(pieces, port) {
  const texts = pieces.map((piece) => (typeof piece === "string" ? piece : piece[0].repeat(piece[1])));
  return Buffer.from(texts.join("").replaceAll("{port}", String(port)), "latin1");
}

/** Sends `answer` after each request, and ends the connection unless it `keeps` it. With null it resets the connection. */
export class Server {
  answer = RIGHT;
  keeps = false;
  requests = [];
  connections = 0;

  async listen() {
    this.server = createServer((socket) => this.converse(socket));
    this.server.listen(0, "127.0.0.1");
    await once(this.server, "listening");
    this.port = this.server.address().port;
    this.address = `http://127.0.0.1:${this.port}`;
    return this;
  }

  converse(socket) {
    this.connections += 1;
    let request = "";
    socket.on("error", () => {});
    socket.on("data", (piece) => {
      request += piece.toString("latin1");
      const [head, body] = request.split("\r\n\r\n");
      const length = /content-length: (\d+)/i.exec(head)?.[1] ?? "0";
      if (body === undefined || body.length < Number(length)) {
        return;
      }
      this.requests.push(request);
      request = "";
      if (this.answer === null) {
        socket.resetAndDestroy();
      } else if (this.keeps) {
        socket.write(this.answer);
      } else {
        socket.end(this.answer);
      }
    });
  }

  close() {
    this.server.close();
  }
}
