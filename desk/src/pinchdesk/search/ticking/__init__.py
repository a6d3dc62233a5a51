"""Networks at plant size: streams are ticked off one by one, with the cascade of what is left as the test."""
