"""The grid diagram."""
