"""Replicates a channel over machines: its lines and answers are streams of RabbitMQ, and two processes or more compute the same answers."""
