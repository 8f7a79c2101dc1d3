/** Files that the browser is given to keep. */

/** Gives the browser a file. */
export function download(name, type, text) {
    const link = document.createElement("a");
    Object.assign(link, { href: URL.createObjectURL(new Blob([text], { type })), download: name });
    link.click();
    setTimeout(() => URL.revokeObjectURL(link.href), 60_000);
}

/**
 * Returns a cell of CSV. What a spreadsheet would take for a formula gets an apostrophe, and one more if it has some, as in the reports:
 * the text, or what is behind a semicolon, which separates cells in many countries, behind a tab, which a spreadsheet may be told to
 * separate cells at, or behind the end of a line.
 */
function cell(text) {
    const safe = text.replace(/(^|[;\t\r\n])('*[=+\-@＝＋－＠])/g, "$1'$2");
    return /[",\r\n]/.test(safe) ? `"${safe.replaceAll('"', '""')}"` : safe;
}

/** Returns rows of texts as CSV. */
export function csvOfRows(rows) {
    return rows.map((row) => `${row.map(cell).join(",")}\r\n`).join("");
}
