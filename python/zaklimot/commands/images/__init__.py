"""Pictures and images: PNG, still and moving, and what other programs draw."""
