"""The versions of an edition: made, verified, and remade for a late page."""
