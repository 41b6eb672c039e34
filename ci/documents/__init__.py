"""Parts of `ci/check-documents`, which says what is checked: blocks, clauses, names, and commands."""
