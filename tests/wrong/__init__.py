"""Wrong bodies laid into rounds: what tests/wrong_bodies.py is made of."""
