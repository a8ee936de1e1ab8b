"""Each call that a program makes of a file, and the images that a crash may leave between them."""
