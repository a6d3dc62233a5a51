"""Networks of few exchangers: a search that decides nothing. What it finds is made exact, and `pinch audit` judges it.

Floats stand here for the solver alone; what leaves this package is in `Fraction`."""
