"""What tests/limits runs: jobs at each limit and one past it, edge cases such as farms that lose all, and little memory."""
