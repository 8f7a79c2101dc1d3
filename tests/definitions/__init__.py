"""The rows as lemmas: the checker computes what the definitions say of each, and compares it with the answer that was written for it."""
