"""Rows and generators of cases, with the answers that stand by hand."""
