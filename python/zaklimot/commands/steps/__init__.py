"""Single-step tests: a state, a step, and the state after it, as data."""
