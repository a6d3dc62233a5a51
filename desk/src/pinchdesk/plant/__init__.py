"""A plant in a notebook: read from its table, with the words of the desk as methods."""
