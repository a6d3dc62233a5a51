"""The staged model of networks, window by window."""
