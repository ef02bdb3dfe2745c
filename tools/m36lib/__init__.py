"""What the tools share: the machine through a pipe, folders, the account of a step, recordings."""
