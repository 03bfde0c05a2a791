"""A second reading of the rules of checked logs, in Python, and sessions that are generated for it; bench/logs.py compares."""
