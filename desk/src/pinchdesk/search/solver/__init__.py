"""Linear programs with whole-number variables: solved in floats, made exact in fractions."""
