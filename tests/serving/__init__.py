"""What tests of the command `grid serve` share: the client protocol's bytes, clients, a server, and how a test is told."""
