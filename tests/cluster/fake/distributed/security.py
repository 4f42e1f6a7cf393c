"""Certificates, of which this stand-in has none."""


class Security:
    def get_connection_args(self, role: str) -> dict:
        return {"ssl_context": None}
