"""From a table of a plant to a case."""
