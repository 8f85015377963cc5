"""A scanner's own side of a session: document 02, K14. A model of the three calls, calls by document 02's sentences, and drawn ones."""
