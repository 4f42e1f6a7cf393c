"""The builder: expressions of Python that become a program's text. What users call is in the package tilefarm itself."""
