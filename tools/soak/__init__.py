"""Random sessions with kills, crashes and failing calls, compared with the model."""
