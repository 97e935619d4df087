"""Real browsers that open the page, and what is compared in them."""


class Failed(Exception):
    """What a browser says of a call that failed."""
