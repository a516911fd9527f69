"""The version. Written by embed/header from VERSION: do not edit."""
__version__: str = "1.2.0"
