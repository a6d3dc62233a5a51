"""The program `pinch`: run, its texts read, and what they say as plain data."""
