// A client of the role administration server `rbac` and of its front, for Node 18 or later. docs/howto/integrate.md shows how an
// application uses it. It needs nothing but Node's own modules.

export { Client } from "./client.js";
export { Decision, OfficeError, RefusedError } from "./decision.js";
export { guard, guardByUser } from "./guard.js";
export { Session, sessionDigest, sessionName } from "./session.js";

/** @typedef {import("./client.js").Options} Options */
/** @typedef {import("./decision.js").Reason} Reason */
/** @typedef {import("./session.js").LeftOut} LeftOut */
/** @typedef {import("./values.js").ImportReport} ImportReport */
/** @typedef {import("./values.js").Permission} Permission */
/** @typedef {import("./values.js").RefusedRecord} RefusedRecord */
