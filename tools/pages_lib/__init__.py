"""What docs/THEOREMS.md, docs/theorems and docs/CRATES.md are made of."""
