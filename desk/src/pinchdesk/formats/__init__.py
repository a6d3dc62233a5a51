"""The files as plain data, read and printed: the only readers of them."""
