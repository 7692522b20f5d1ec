"""What a reader of quadq has to believe, found in the sources."""
