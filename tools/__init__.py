"""Code shared by the checks, the measurements and the top-level scripts. It imports none of them."""
