"""Says how a channel of the service is: metrics for Prometheus from its answers, and its state in words from a snapshot."""
