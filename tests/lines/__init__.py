"""Lines and their answers: rows that were written beforehand, random lines, and the plain model alone."""
