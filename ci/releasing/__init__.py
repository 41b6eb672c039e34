"""How `ci/release` makes a release: the steps, the record of what they did, the components, and the theorems that were proved."""
