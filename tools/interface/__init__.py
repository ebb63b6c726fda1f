"""What tools/faces.py is made of."""
