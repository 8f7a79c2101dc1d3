/**
 * A permission: the name of an object and that of an operation.
 */
export type Permission = readonly [object: string, operation: string];
/**
 * A record of an import that was refused, counted from 1, and the code of the refusal.
 */
export type RefusedRecord = {
    code: number;
    record: number;
};
/**
 * What an import did. If its answer was lost and the client repeated it, what it had done before counts as `already`.
 */
export type ImportReport = {
    already: number;
    assigned: number;
    refused: RefusedRecord[];
};
