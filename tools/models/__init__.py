"""Models that were written from the standards and docs/FORMATS.md alone; they compute the answers that are expected."""
