"""What routers really did, as the definitions of crates/*/specs speak of it, and those definitions in Python."""
