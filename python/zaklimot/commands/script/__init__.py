"""Scripts, and the program that runs them: where it is found, or of what it is made."""
