"""What `tests/must_fail` is made of."""
