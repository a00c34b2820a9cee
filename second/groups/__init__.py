"""The vectors, a module to a group of calls. Each yields its calls in a fixed order."""
