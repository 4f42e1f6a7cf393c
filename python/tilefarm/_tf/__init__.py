"""What tools/tf is made of. Each module has one task; none needs more than Python 3.11."""
