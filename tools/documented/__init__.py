"""What the documents say, compared with what the repository has and what the program does."""
