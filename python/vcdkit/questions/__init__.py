"""What is asked of dumps, and what answers: values, rows, times, counts and differences."""
