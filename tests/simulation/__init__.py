"""A house, its clients and a device, taken through stops and faults as seeds pick them."""
