"""Says why there is no page."""


class NoPage(Exception):
    """A source of a page does not have what the page needs."""
