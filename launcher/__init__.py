"""What the command `fdps` does before, beside and after the program: proving and building it, progress, refused texts."""
