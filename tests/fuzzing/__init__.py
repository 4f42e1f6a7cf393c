"""Random programs, pictures, fact files and scripts, what is done to their texts, and what must hold of the program's answers."""
