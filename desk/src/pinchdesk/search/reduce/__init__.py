"""Networks made smaller, and exchangers against cost."""
