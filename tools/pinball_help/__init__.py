"""Help with the answers of `pinball`. Nothing here is proved: the program alone decides what is accepted."""
