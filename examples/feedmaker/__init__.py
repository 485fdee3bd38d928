"""Feeds for `sia-v1 ledger` from a readable description; the parts of examples/make_feed."""
