"""One word over many cases, here or on other machines."""
