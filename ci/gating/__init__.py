"""Parts of `ci/gate`, which says what it does: the meter, the costs, and the run."""
