"""The words of the desk: each a function of what its files hold and of its options."""
