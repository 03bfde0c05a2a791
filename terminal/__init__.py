"""apdi: a conversation with apd at a terminal, and pages of its logs."""
