// What the client uses of Node, for a check where @types/node isn't installed.

declare class Buffer extends Uint8Array {
  static byteLength(text: string): number;
  static concat(list: readonly Uint8Array[]): Buffer;
  equals(other: Uint8Array): boolean;
  toString(encoding?: string, start?: number, end?: number): string;
}

declare const performance: { now(): number };
declare const console: { warn(text: string): void; error(text: string, error: unknown): void };
declare function setTimeout(call: () => void, milliseconds: number): { unref(): void };
declare function clearTimeout(timer: { unref(): void } | undefined): void;
declare class URL {
  constructor(text: string);
  protocol: string;
  hostname: string;
  port: string;
  username: string;
  password: string;
  pathname: string;
  search: string;
  hash: string;
}

declare class TextDecoder {
  constructor(label: string, options: { fatal: boolean; ignoreBOM: boolean });
  decode(bytes: Uint8Array): string;
}

declare module "node:crypto" {
  export function randomBytes(size: number): Buffer;
  export function createHash(name: string): { update(text: string): { digest(encoding: "hex"): string } };
}

declare module "node:http" {
  export interface Failure extends Error {
    code?: string;
  }
  export interface Socket {
    connecting: boolean;
    once(event: "connect" | "secureConnect", call: () => void): void;
    on(event: "data", call: () => void): void;
    prependListener(event: "data", call: (piece: Buffer) => void): void;
    off(event: "data", call: (piece: Buffer) => void): void;
    destroy(): void;
  }
  export class Agent {
    constructor(options: object);
    on(event: "free", call: (socket: Socket) => void): void;
    destroy(): void;
  }
  export interface IncomingMessage {
    statusCode?: number;
    rawHeaders: string[];
    complete: boolean;
    on(event: "data", call: (piece: Buffer) => void): void;
    on(event: "end", call: () => void): void;
    on(event: "error", call: (error: Failure) => void): void;
  }
  export interface ClientRequest {
    reusedSocket: boolean;
    on(event: "response", call: (response: IncomingMessage) => void): void;
    on(event: "error", call: (error: Failure) => void): void;
    on(event: "close", call: () => void): void;
    on(event: "socket", call: (socket: Socket) => void): void;
    end(body: string): void;
    destroy(error?: Error): void;
  }
  export function request(options: object): ClientRequest;
}

declare module "node:https" {
  import { Agent as HttpAgent, ClientRequest } from "node:http";
  export class Agent extends HttpAgent {}
  export function request(options: object): ClientRequest;
}

declare module "node:net" {
  export function isIP(text: string): number;
}

declare module "node:tls" {
  export interface Certificate {
    subjectaltname?: string;
  }
  export function checkServerIdentity(host: string, certificate: Certificate): Error | undefined;
}
