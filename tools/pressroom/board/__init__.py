"""The board: the night in a browser, from what the service publishes."""
