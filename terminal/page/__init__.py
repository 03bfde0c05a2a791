"""Pages to look at, made of logs."""
