"""What follows of answers, exactly: networks step by step, cuts, least units, what is left, what if."""
