"""What runs of the package report: figures for Prometheus, and the state for the service manager."""
