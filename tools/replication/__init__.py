"""Tries replicated channels on one machine, with a cluster of RabbitMQ in namespaces of their own."""
