"""The checks of the built program; tests/run runs them."""
