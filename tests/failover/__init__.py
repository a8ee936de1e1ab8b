"""The loss of a machine, tried: three machines on one, a volume that all three keep, and auctions on it that have to outlive each story."""
