"""What tools/sweep consists of: pieces of work, the inputs that they try, and who runs them."""
