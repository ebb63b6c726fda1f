"""What tools/index.py is made of."""
