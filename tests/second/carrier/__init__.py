"""Calls signed for a carrier: document 02, K13. A model of both calls, the other side's writer, calls by document 02's sentences, and drawn ones."""
