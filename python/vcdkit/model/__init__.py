"""What dumps are made of: times, values, variables and their names. It reads nothing."""
