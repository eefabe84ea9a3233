"""Code of plant_bridge: Unix sockets for the operators of a channel and for its owner (docs/BRIDGE.md)."""
