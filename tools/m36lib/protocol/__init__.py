"""What the Language Server Protocol and the Debug Adapter Protocol share: messages, the order in
which they are taken, and the types of their members."""
