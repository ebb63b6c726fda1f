"""What tools/contracts.py is made of."""
