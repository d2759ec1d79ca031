"""Net files for the conversions and for pruning, with their results."""
