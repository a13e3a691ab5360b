"""What viewd and ./gateway cost: `bench/run` and `bench/gateway`."""
