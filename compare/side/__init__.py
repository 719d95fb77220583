"""What `compare/run` and `compare/server` share."""
