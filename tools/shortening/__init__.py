"""What `tools/shorten_proofs` does, step by step: terms, lines, facts, and trials of what may stand in their place."""
