"""The command `pinchdesk`."""
