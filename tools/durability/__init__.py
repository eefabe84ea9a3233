"""Tries a service with a folder for its state: killed processes, failing calls, full disks and damaged journals."""
