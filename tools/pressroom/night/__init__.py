"""The night as a service: a journal, a private store, jobs of their own, and one queue a site."""
