// What the methods of the client return.

/**
 * A permission: the name of an object and that of an operation.
 *
 * @typedef {readonly [object: string, operation: string]} Permission
 */

/**
 * A record of an import that was refused, counted from 1, and the code of the refusal.
 *
 * @typedef {{ code: number, record: number }} RefusedRecord
 */

/**
 * What an import did. If its answer was lost and the client repeated it, what it had done before counts as `already`.
 *
 * @typedef {{ already: number, assigned: number, refused: RefusedRecord[] }} ImportReport
 */

export {};
