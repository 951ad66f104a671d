"""What contrib/make-collection is made of: games, the questions that they hold, and what becomes of them."""
