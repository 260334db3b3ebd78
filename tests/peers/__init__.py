"""The desk beside sudo, HTTP clients, sockets, stores, fronts and monitoring."""
