"""Access logs: document 02, K5. A counter, lines that are read or not, drawn logs, and the program held to them."""
