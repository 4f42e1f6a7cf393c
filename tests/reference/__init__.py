"""The reference evaluator, the readers of each format and the models of schedules and worlds: written from docs/ alone."""
