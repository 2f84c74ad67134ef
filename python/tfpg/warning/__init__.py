"""Says what is accepted and surely not meant, and what was lost because it was refused."""
