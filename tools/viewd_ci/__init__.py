"""The gate's programs: each module with a `main` is a command of .ci/."""
